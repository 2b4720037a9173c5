/* The scanner that flex makes. */
#ifndef FLEX_SCANNER_H
#define FLEX_SCANNER_H

#include "competitor.h"

extern struct place token_place;
extern uint32_t scan_fault;

/* The next token's kind, END or FAULT. */
int yylex(void);

/* The sheet has two bytes 0 behind its last, as flex wants them to scan it where it stands. */
void open_sheet(char *sheet, size_t length);
void close_sheet(void);

#endif
