/* Reading by bison, over the scanner that flex makes. The actions write the number of each rule as it is reduced. */
#include "flex_scanner.h"
#include "bison_parser.h"

static uint32_t tokens;
static int last_kind;

static int is_token(int kind) {
    return kind != END && kind != FAULT;
}

/* The tokens that the grammar sees: line ends and comments are left out. */
int next_token(void) {
    int kind;
    do {
        kind = yylex();
    } while (kind == LINE_END || kind == COMMENT);
    tokens += is_token(kind);
    last_kind = kind;
    return kind;
}

void yyerror(const char *message) {
    (void)message;
}

static struct outcome read_once(char *sheet, size_t length, unsigned char *rules, size_t room) {
    struct outcome answer = {0};
    if (length > MOST_BYTES) {
        answer.number = TOO_LONG;
        return answer;
    }
    rule_list = rules;
    rule_room = room;
    rule_count = 0;
    tokens = 0;
    scan_fault = 0;
    open_sheet(sheet, length);
    if (yyparse() != 0) {
        answer.number = scan_fault != 0 ? SOURCE_FAULT : UNFIT;
        answer.fault = scan_fault;
        answer.place = token_place;
        tokens -= is_token(last_kind);
    }
    close_sheet();
    answer.tokens = tokens;
    answer.rules = rule_count;
    return answer;
}

struct outcome read_sheet(char *sheet, size_t length, unsigned char *rules, size_t room, unsigned times) {
    struct outcome answer = {0};
    for (unsigned i = 0; i < times; i++) {
        answer = read_once(sheet, length, rules, room);
    }
    return answer;
}
