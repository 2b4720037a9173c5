/* The calls of the crate reader_c. Refusals and faults have the numbers of docs/FORMATS.md.
 *
 * A slice is a pointer, not null, and the number of elements that stand there. What a call writes to overlaps nothing else
 * that it is given. A store of 1,048,576 bytes and 861 starts have room for every table, a list of 1,000,001 places for
 * every sheet. */
#ifndef READER_C_H
#define READER_C_H

#include <stdbool.h>
#include <stddef.h>
#include <stdint.h>

#ifdef __cplusplus
extern "C" {
#endif

/* The number of a refusal, and what is returned with it; all are 0 where nothing was refused. A scan that comes to the end
 * has number 0 and the place of the end. */
struct cause {
    uint8_t number;
    size_t first;
    size_t second;
    size_t third;
};

struct load_answer {
    struct cause cause;
    size_t frames;
    size_t bytes;
};

struct scan_answer {
    struct cause cause; /* with the place of the end, or of a fault */
    uint32_t tokens;
    uint32_t checksum;
};

/* Over with number 0: the sheet was read to its end. Not over with number 0: the places of the list were used up. */
struct read_answer {
    struct cause cause;
    bool over;
    uint32_t tokens;
    uint32_t rules;
    uint32_t moves;
};

struct load_answer reader_c_load(const uint8_t *text, size_t length, uint8_t *store, size_t store_room, size_t *starts,
    size_t starts_room);
struct cause reader_c_check(const uint8_t *store, size_t store_room, const size_t *starts, size_t starts_room,
    size_t frames, size_t bytes);
struct scan_answer reader_c_scan(const uint8_t *sheet, size_t length);
/* Checks the table, each time. `more` is 0, or how often the sheet is read again, for measurements. */
struct read_answer reader_c_read(const uint8_t *store, size_t store_room, const size_t *starts, size_t starts_room,
    size_t frames, size_t bytes, const uint8_t *sheet, size_t length, uint8_t *list, size_t list_room, uint32_t more);

#ifdef __cplusplus
}
#endif

#endif
