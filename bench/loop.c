/* A scanner with a table of classes, and a table-driven LL(1) loop, as one writes them in C. */
#include <string.h>

#include "competitor.h"
#include "loop_grammar.h"

/* Left to itself, gcc calls the parts of the scanner at each token, which costs a quarter. */
#define INLINED static inline __attribute__((always_inline))

enum class { OTHER, LETTER, DIGIT, BLANK, NEWLINE, MARK, QUOTE, HASH };

static unsigned char class_of[256];
static unsigned char mark_of[256];

struct scanner {
    const unsigned char *at;
    const unsigned char *end;
    uint32_t line;
    uint32_t column;
    uint32_t fault;
};

struct token {
    uint32_t kind;
    struct place place;
};

static const struct {
    unsigned char byte, kind;
} marks[] = {{':', COLON}, {'=', EQUALS}, {',', COMMA}, {';', SEMICOLON}, {'-', MINUS}};

__attribute__((constructor)) static void fill_classes(void) {
    for (int byte = 'a'; byte <= 'z'; byte++) {
        class_of[byte] = LETTER;
    }
    for (int byte = '0'; byte <= '9'; byte++) {
        class_of[byte] = DIGIT;
    }
    class_of[' '] = class_of['\t'] = BLANK;
    class_of['\n'] = NEWLINE;
    class_of['"'] = QUOTE;
    class_of['#'] = HASH;
    for (size_t i = 0; i < sizeof marks / sizeof *marks; i++) {
        class_of[marks[i].byte] = MARK;
        mark_of[marks[i].byte] = marks[i].kind;
    }
}

static void open_sheet(struct scanner *scanner, const char *sheet, size_t length) {
    scanner->at = (const unsigned char *)sheet;
    scanner->end = scanner->at + length;
    scanner->line = scanner->column = 1;
    scanner->fault = 0;
}

INLINED uint32_t keyword_of(const unsigned char *text, size_t length) {
    switch (length) {
    case 2:
        return memcmp(text, "to", 2) == 0 ? TO : WORD;
    case 3:
        return memcmp(text, "set", 3) == 0 ? SET : memcmp(text, "off", 3) == 0 ? OFF : WORD;
    case 4:
        return memcmp(text, "zone", 4) == 0 ? ZONE : memcmp(text, "from", 4) == 0 ? FROM : WORD;
    case 5:
        return memcmp(text, "curve", 5) == 0 ? CURVE : WORD;
    default:
        return WORD;
    }
}

INLINED const unsigned char *run_of(enum class class, const unsigned char *at, const unsigned char *end) {
    while (at < end && class_of[*at] == class) {
        at++;
    }
    return at;
}

static uint32_t faulted(struct scanner *scanner, uint32_t number) {
    scanner->fault = number;
    return FAULT;
}

/* The kind of the token at the front, which is not blank; `at` moves behind it. */
INLINED uint32_t cut(struct scanner *scanner, const unsigned char **at) {
    const unsigned char *text = *at, *end = scanner->end;
    switch (class_of[*text]) {
    case LETTER:
        *at = run_of(LETTER, text + 1, end);
        return *at - text > MOST_LEXEME ? faulted(scanner, OVERSIZED) : keyword_of(text, (size_t)(*at - text));
    case DIGIT:
        *at = run_of(DIGIT, text + 1, end);
        return *at - text > MOST_LEXEME ? faulted(scanner, OVERSIZED) : NUMBER;
    case NEWLINE:
        *at = text + 1;
        return LINE_END;
    case MARK:
        *at = text + 1;
        return mark_of[*text];
    case QUOTE:
        for (text++; text < end && *text != '"' && *text != '#' && *text != '\n';) {
            text++;
        }
        *at = text + 1;
        return text < end && *text == '"' ? NAME : faulted(scanner, OPEN_QUOTE);
    case HASH:
        while (text < end && *text != '\n') {
            text++;
        }
        *at = text;
        return COMMENT;
    default:
        return faulted(scanner, NO_CLASS);
    }
}

INLINED struct token next(struct scanner *scanner) {
    const unsigned char *start = run_of(BLANK, scanner->at, scanner->end), *at = start;
    scanner->column += (uint32_t)(start - scanner->at);
    struct token token = {END, {scanner->line, scanner->column}};
    if (start < scanner->end) {
        token.kind = cut(scanner, &at);
        scanner->column += (uint32_t)(at - start);
        if (token.kind == LINE_END) {
            scanner->line++;
            scanner->column = 1;
        }
    }
    scanner->at = at;
    return token;
}

static struct scanned scan_once(const char *sheet, size_t length) {
    struct scanned answer = {0};
    if (length > MOST_BYTES) {
        answer.number = TOO_LONG;
        return answer;
    }
    struct scanner scanner;
    struct token token;
    open_sheet(&scanner, sheet, length);
    while ((token = next(&scanner)).kind != END && token.kind != FAULT) {
        answer.tokens++;
        answer.checksum = mixed(answer.checksum, token.kind, token.place);
    }
    answer.number = scanner.fault;
    answer.place = token.place;
    return answer;
}

struct scanned scan_sheet(char *sheet, size_t length, unsigned times) {
    struct scanned answer = {0};
    for (unsigned i = 0; i < times; i++) {
        answer = scan_once(sheet, length);
    }
    return answer;
}

static struct token next_seen(struct scanner *scanner) {
    struct token token;
    do {
        token = next(scanner);
    } while (token.kind == LINE_END || token.kind == COMMENT);
    return token;
}

enum { MOST_STACK = 256 };

/* The stack has the symbols that are still to come, the next one on top; below them all stands END. */
static void run(struct scanner *scanner, unsigned char *rules, size_t room, struct outcome *answer) {
    unsigned char stack[MOST_STACK];
    size_t top = 0;
    stack[top++] = END;
    stack[top++] = FIRST_NONTERMINAL;
    struct token token = next_seen(scanner);
    answer->tokens = token.kind != END && token.kind != FAULT;
    for (;;) {
        unsigned symbol = stack[top - 1];
        if (symbol < FIRST_NONTERMINAL) {
            if (symbol != token.kind) {
                break;
            }
            if (symbol == END) {
                return;
            }
            top--;
            token = next_seen(scanner);
            answer->tokens += token.kind != END && token.kind != FAULT;
        } else {
            unsigned rule = choice[symbol - FIRST_NONTERMINAL][token.kind];
            if (rule == NO_RULE) {
                break;
            }
            size_t length = right_length[rule];
            top--;
            if (top + length > MOST_STACK || answer->rules == room) {
                answer->number = STACK_FULL;
                return;
            }
            for (size_t i = 0; i < length; i++) {
                stack[top + i] = right_reversed[rule][i];
            }
            top += length;
            rules[answer->rules++] = (unsigned char)rule;
        }
    }
    answer->tokens -= token.kind != END && token.kind != FAULT;
    answer->number = token.kind == FAULT ? SOURCE_FAULT : UNFIT;
    answer->fault = scanner->fault;
    answer->place = token.place;
}

static struct outcome read_once(const char *sheet, size_t length, unsigned char *rules, size_t room) {
    struct outcome answer = {0};
    if (length > MOST_BYTES) {
        answer.number = TOO_LONG;
        return answer;
    }
    struct scanner scanner;
    open_sheet(&scanner, sheet, length);
    run(&scanner, rules, room, &answer);
    return answer;
}

struct outcome read_sheet(char *sheet, size_t length, unsigned char *rules, size_t room, unsigned times) {
    struct outcome answer = {0};
    for (unsigned i = 0; i < times; i++) {
        answer = read_once(sheet, length, rules, room);
    }
    return answer;
}
