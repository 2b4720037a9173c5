/* For competitors that read by no table file. */
#include "competitor.h"

int load_table(const unsigned char *text, size_t length) {
    (void)text;
    (void)length;
    return 0;
}

int check_table(void) {
    return 0;
}
