/* Does something so many times by the competitor that it is linked with, and prints the answer:
 *
 *     driver load TABLE TIMES
 *     driver check TABLE TIMES
 *     driver scan SHEET TIMES
 *     driver read SHEET TIMES TABLE [RULES]
 *
 * With RULES, the rules are written to that file, a byte each.
 */
#include <stdio.h>
#include <stdlib.h>
#include <string.h>

#include "competitor.h"
#include "inputs.h"

static char sheet[MOST_FILE], table[MOST_FILE];
static unsigned char rules[ROOM];

static void write_rules(const char *path, uint32_t count) {
    FILE *file = fopen(path, "wb");
    if (file == NULL || fwrite(rules, 1, count, file) != count || fclose(file) != 0) {
        perror(path);
        exit(2);
    }
}

static void load(const char *path, unsigned times) {
    size_t length = contents(path, table);
    for (unsigned i = 0; i < times; i++) {
        int number = load_table((unsigned char *)table, length);
        if (number != 0) {
            printf("load refused %d\n", number);
            exit(1);
        }
    }
}

static void check(const char *path, unsigned times) {
    load(path, 1);
    for (unsigned i = 0; i < times; i++) {
        int number = check_table();
        if (number != 0) {
            printf("check refused %d\n", number);
            exit(1);
        }
    }
}

static void scan(const char *path, unsigned times) {
    size_t length = contents(path, sheet);
    struct scanned answer = scan_sheet(sheet, length, times);
    printf("number=%u place=%u:%u tokens=%u checksum=%u\n", answer.number, answer.place.line, answer.place.column,
        answer.tokens, answer.checksum);
}

static void read_by(const char *path, unsigned times, const char *table_path, const char *rules_path) {
    size_t length = contents(path, sheet);
    load(table_path, 1);
    struct outcome answer = read_sheet(sheet, length, rules, ROOM, times);
    printf("number=%u fault=%u place=%u:%u tokens=%u rules=%u\n", answer.number, answer.fault, answer.place.line,
        answer.place.column, answer.tokens, answer.rules);
    if (rules_path != NULL) {
        write_rules(rules_path, answer.rules);
    }
}

int main(int count, char **words) {
    unsigned times = count > 3 ? (unsigned)atoi(words[3]) : 0;
    if (count == 4 && strcmp(words[1], "load") == 0) {
        load(words[2], times);
    } else if (count == 4 && strcmp(words[1], "check") == 0) {
        check(words[2], times);
    } else if (count == 4 && strcmp(words[1], "scan") == 0) {
        scan(words[2], times);
    } else if (count > 4 && strcmp(words[1], "read") == 0) {
        read_by(words[2], times, words[4], count > 5 ? words[5] : NULL);
    } else {
        fputs("what to do is said at the top of driver.c\n", stderr);
        return 2;
    }
    return 0;
}
