/* Scanning by flex. */
#include "flex_scanner.h"

static struct scanned scan_once(char *sheet, size_t length) {
    struct scanned answer = {0};
    if (length > MOST_BYTES) {
        answer.number = TOO_LONG;
        return answer;
    }
    open_sheet(sheet, length);
    int kind;
    while ((kind = yylex()) != END && kind != FAULT) {
        answer.tokens++;
        answer.checksum = mixed(answer.checksum, (uint32_t)kind, token_place);
    }
    answer.number = kind == FAULT ? scan_fault : 0;
    answer.place = token_place;
    close_sheet();
    return answer;
}

struct scanned scan_sheet(char *sheet, size_t length, unsigned times) {
    struct scanned answer = {0};
    for (unsigned i = 0; i < times; i++) {
        answer = scan_once(sheet, length);
    }
    return answer;
}
