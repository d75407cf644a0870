/* What the host has in the place of a board's console, and of the file that says which case is played. */
#include "board_target.h"
#include <stdio.h>
#include <stdlib.h>

void host_print(const char *form, intptr_t a, intptr_t b, intptr_t c, intptr_t d, intptr_t e) {
    char line[300];
    snprintf(line, sizeof line, form, a, b, c, d, e);
    fprintf(stderr, "%s\n", line);
}

int host_case(void) {
    return atoi(getenv("BOARD_NUMBER"));
}
