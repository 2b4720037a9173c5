/* What the drivers measure: each competitor has these calls. The numbers of refusals are those of docs/FORMATS.md. */
#ifndef COMPETITOR_H
#define COMPETITOR_H

#include <stddef.h>
#include <stdint.h>

enum {
    FINISHED = 0,
    UNFIT = 12,
    STACK_FULL = 13,
    SOURCE_FAULT = 15,
    TOO_LONG = 18,
    NO_CLASS = 19,
    OPEN_QUOTE = 20,
    OVERSIZED = 21,
};

enum kind {
    END = 0,
    NUMBER = 1,
    WORD = 2,
    NAME = 3,
    COLON = 4,
    EQUALS = 5,
    COMMA = 6,
    SEMICOLON = 7,
    MINUS = 8,
    ZONE = 9,
    CURVE = 10,
    SET = 11,
    FROM = 12,
    TO = 13,
    OFF = 14,
    LINE_END = 15,
    COMMENT = 16,
    FAULT = 17,
};

enum { MOST_BYTES = 60000, MOST_LEXEME = 32 };

struct place {
    uint32_t line;
    uint32_t column;
};

/* The fault's number (0 at the end) and its place; the number of tokens, and a sum over their kinds and places. */
struct scanned {
    uint32_t number;
    struct place place;
    uint32_t tokens;
    uint32_t checksum;
};

/* How the reading ended, with the fault and the place of a refusal; the tokens before it, and the rules. */
struct outcome {
    uint32_t number;
    uint32_t fault;
    struct place place;
    uint32_t tokens;
    uint32_t rules;
};

static inline uint32_t mixed(uint32_t checksum, uint32_t kind, struct place place) {
    return checksum * 31 + kind + (place.column << 5) + (place.line << 16);
}

/* The text of a table file is loaded, and the table checked. Competitors that read by none do nothing. Each gives a
 * refusal's number. */
int load_table(const unsigned char *text, size_t length);
int check_table(void);

/* Both do the same `times` times, at least once, and answer for the last. The sheet has two bytes 0 behind its last. */
struct scanned scan_sheet(char *sheet, size_t length, unsigned times);
struct outcome read_sheet(char *sheet, size_t length, unsigned char *rules, size_t room, unsigned times);

#endif
