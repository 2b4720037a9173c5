/* The parser that bison makes of the grammar, and where its actions write. */
#ifndef BISON_PARSER_H
#define BISON_PARSER_H

#include <stddef.h>
#include <stdint.h>

extern unsigned char *rule_list;
extern size_t rule_room;
extern uint32_t rule_count;

int yyparse(void);
int next_token(void);
void yyerror(const char *message);

#endif
