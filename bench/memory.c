/* How much stack each call of a competitor takes, and how often it asks for heap: `memory SHEET TABLE`.
 *
 * A call runs in a thread of its own, on a stack that was filled with a pattern; what is overwritten was used. Linked
 * with -Wl,--wrap for malloc, calloc and realloc.
 */
#include <pthread.h>
#include <stdalign.h>
#include <stdio.h>
#include <stdlib.h>
#include <string.h>

#include "competitor.h"
#include "inputs.h"

enum { STACK = 1 << 20, PATTERN = 0xA5 };

static char sheet[MOST_FILE], table[MOST_FILE];
static unsigned char rules[ROOM];
static size_t sheet_length, table_length;
static alignas(4096) unsigned char stack[STACK];
static unsigned long requests;
static size_t requested;

void *__real_malloc(size_t size);
void *__real_calloc(size_t count, size_t size);
void *__real_realloc(void *old, size_t size);

static void count_request(size_t size) {
    requests++;
    requested += size;
}

void *__wrap_malloc(size_t size) {
    count_request(size);
    return __real_malloc(size);
}

void *__wrap_calloc(size_t count, size_t size) {
    count_request(count * size);
    return __real_calloc(count, size);
}

void *__wrap_realloc(void *old, size_t size) {
    count_request(size);
    return __real_realloc(old, size);
}

static void *nothing(void *unused) {
    return unused;
}

static void *load(void *unused) {
    load_table((unsigned char *)table, table_length);
    return unused;
}

static void *check(void *unused) {
    check_table();
    return unused;
}

static void *scan(void *unused) {
    scan_sheet(sheet, sheet_length, 1);
    return unused;
}

static void *read_whole(void *unused) {
    read_sheet(sheet, sheet_length, rules, ROOM, 1);
    return unused;
}

/* The bytes of stack from the deepest that was written. */
static size_t depth(void *(*call)(void *)) {
    pthread_attr_t attributes;
    pthread_t thread;
    memset(stack, PATTERN, STACK);
    pthread_attr_init(&attributes);
    pthread_attr_setstack(&attributes, stack, STACK);
    if (pthread_create(&thread, &attributes, call, NULL) != 0 || pthread_join(thread, NULL) != 0) {
        fputs("no thread\n", stderr);
        exit(2);
    }
    size_t untouched = 0;
    while (untouched < STACK && stack[untouched] == PATTERN) {
        untouched++;
    }
    return STACK - untouched;
}

int main(int count, char **words) {
    static const struct {
        const char *name;
        void *(*call)(void *);
    } calls[] = {{"load", load}, {"check", check}, {"scan", scan}, {"read", read_whole}};
    if (count != 3) {
        fputs("memory SHEET TABLE\n", stderr);
        return 2;
    }
    sheet_length = contents(words[1], sheet);
    table_length = contents(words[2], table);
    depth(nothing);
    size_t thread = depth(nothing); /* what a thread takes by itself */
    for (size_t i = 0; i < sizeof calls / sizeof *calls; i++) {
        requests = requested = 0;
        size_t used = depth(calls[i].call);
        printf("%s stack=%zu requests=%lu requested=%zu\n", calls[i].name, used - thread, requests, requested);
    }
    return 0;
}
