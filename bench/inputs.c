#include "inputs.h"

#include <stdio.h>
#include <stdlib.h>

size_t contents(const char *path, char into[MOST_FILE]) {
    FILE *file = fopen(path, "rb");
    if (file == NULL) {
        perror(path);
        exit(2);
    }
    size_t length = fread(into, 1, MOST_FILE - 2, file);
    fclose(file);
    return length;
}
