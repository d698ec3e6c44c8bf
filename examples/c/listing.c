/*
 * Prints the listing of a station file, as the program plan does: of the file that is named, or of standard input.
 *
 * All memory is the caller's: the planner has none of its own. events.c beside this file hands events over one by one.
 */
#include <stdio.h>

#include "planner.h"

/* One byte more than a text may have, so that a longer one is seen to be too long. */
static uint8_t text[PLANNER_TEXT_BYTES + 1];
static planner_cell table[PLANNER_TABLE_CELLS];
static uint8_t out[PLANNER_LISTING_BYTES];

int main(int argc, char **argv)
{
    FILE *in = 1 < argc ? fopen(argv[1], "rb") : stdin;
    if (in == NULL) {
        perror(argv[1]);
        return 1;
    }
    size_t length = fread(text, 1, sizeof text, in);
    if (ferror(in)) {
        perror("the station file");
        return 1;
    }
    uint64_t bytes = 0;
    uint32_t cause = planner_listing(text, length, table, PLANNER_TABLE_CELLS, out, sizeof out, &bytes);
    if (cause == PLANNER_ACCEPTED) {
        fwrite(out, 1, bytes, stdout);
    } else {
        /* Only 10 and 8 come here, at line 0: every other refusal is in the listing. */
        printf("(refused 0 %u)\n", (unsigned)cause);
    }
    if (fflush(stdout) != 0 || ferror(stdout)) {
        perror("the listing");
        return 1;
    }
    return 0;
}
