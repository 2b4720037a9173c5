/* The proved library. */
#include "../crates/reader_c/reader_c.h"
#include "competitor.h"

enum { STORE_BYTES = 1048576, MOST_FRAMES = 861 };

static uint8_t store[STORE_BYTES];
static size_t starts[MOST_FRAMES];
static struct load_answer loaded;

int load_table(const unsigned char *text, size_t length) {
    loaded = reader_c_load(text, length, store, STORE_BYTES, starts, MOST_FRAMES);
    return loaded.cause.number;
}

int check_table(void) {
    return reader_c_check(store, STORE_BYTES, starts, MOST_FRAMES, loaded.frames, loaded.bytes).number;
}

static struct place place_of(size_t line, size_t column) {
    return (struct place){(uint32_t)line, (uint32_t)column};
}

struct scanned scan_sheet(char *sheet, size_t length, unsigned times) {
    struct scanned answer = {0};
    for (unsigned i = 0; i < times; i++) {
        struct scan_answer found = reader_c_scan((const uint8_t *)sheet, length);
        struct place place = place_of(found.cause.first, found.cause.second);
        answer = (struct scanned){found.cause.number, place, found.tokens, found.checksum};
    }
    return answer;
}

struct outcome read_sheet(char *sheet, size_t length, unsigned char *rules, size_t room, unsigned times) {
    struct read_answer read = reader_c_read(store, STORE_BYTES, starts, MOST_FRAMES, loaded.frames, loaded.bytes,
        (const uint8_t *)sheet, length, rules, room, times - 1);
    struct outcome answer = {read.cause.number, 0, {0, 0}, read.tokens, read.rules};
    if (answer.number == UNFIT) {
        answer.place = place_of(read.cause.first, read.cause.second);
    } else if (answer.number == SOURCE_FAULT) {
        answer.fault = (uint32_t)read.cause.first;
        answer.place = place_of(read.cause.second, read.cause.third);
    }
    return answer;
}
