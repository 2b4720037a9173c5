/* The files that a driver is given. */
#ifndef INPUTS_H
#define INPUTS_H

#include <stddef.h>

enum { MOST_FILE = 1 << 21, ROOM = 1000001 };

/* A file's bytes, with bytes 0 behind them, and their number. Ends the program where the file cannot be read. */
size_t contents(const char *path, char into[MOST_FILE]);

#endif
