/*
 * Plans the head of a station file, then hands its events over one by one, as firmware does: of the file that is named, or of standard input. For every text it prints what the program plan
 * prints: the grants, the answer to each event, and the table at the end, or the one line of a head that is refused.
 */
#include <stdio.h>
#include <string.h>

#include "planner.h"

/* One byte more than a text may have, so that a longer one is seen to be too long. */
static uint8_t text[PLANNER_TEXT_BYTES + 1];

/* The running frame. */
static uint64_t frame[PLANNER_FRAME_NUMBERS];
static uint8_t presets[PLANNER_PRESETS_BYTES];
static planner_cell table[PLANNER_TABLE_CELLS];

/* The output of planner_run_text, which this program does not print. */
static uint8_t out[PLANNER_OUT_BYTES];

/* How many bytes the line at a place has, its byte 10 included. */
static size_t line_length(const uint8_t *line, size_t left)
{
    const uint8_t *end = (const uint8_t *)memchr(line, '\n', left);
    return end == NULL ? left : (size_t)(end - line) + 1;
}

/* Whether a line has an event's form, whatever its values: a frame of one slot and one bridge is asked, at clock 0, the first. */
static int is_event(const uint8_t *line, size_t length)
{
    uint64_t small[PLANNER_FRAME_NUMBERS] = {0};
    static planner_cell empty[PLANNER_TABLE_CELLS];
    uint64_t number = 0;
    small[PLANNER_FRAME_SLOTS] = 1;
    small[PLANNER_FRAME_BRIDGES] = 1;
    uint32_t cause = planner_event(small, PLANNER_FRAME_NUMBERS, presets, sizeof presets, empty, PLANNER_TABLE_CELLS, line, length, &number);
    empty[0] = 0;
    return cause != PLANNER_NO_FORM && cause != PLANNER_OUT_OF_PLACE;
}

/* Whether a line that has an event's form is a tie line. */
static int is_tie(const uint8_t *line)
{
    return line[1] == 't';
}

/* Whether a line begins as a supply line does, and as no other form does. */
static int is_supply(const uint8_t *line, size_t length)
{
    return 1 < length && line[1] == 's';
}

static void print_refused(uint64_t line, uint32_t cause)
{
    printf("(refused %llu %u)\n", (unsigned long long)line, (unsigned)cause);
}

/* An event that is accepted is (clock .., (call .. or (tie .., and a tie is printed as it came. */
static void print_accepted(const uint8_t *line, uint64_t number)
{
    if (is_tie(line)) {
        printf("(tie %s)\n", number == PLANNER_TIE_PLACE ? "place" : "hold");
    } else {
        printf("(%s %llu)\n", line[2] == 'l' ? "now" : "taken", (unsigned long long)number);
    }
}

static void print_grants(const uint8_t *grants)
{
    for (uint64_t i = 0; i < frame[PLANNER_FRAME_PRESETS]; i++) {
        printf("(granted %u %u)\n", presets[i * PLANNER_PRESET_BYTES + PLANNER_PRESET_NUMBER], grants[i]);
    }
}

static void print_cell(planner_cell cell)
{
    unsigned number = PLANNER_CELL_NUMBER(cell);
    switch (PLANNER_CELL_KIND(cell)) {
    case PLANNER_CELL_EMPTY: printf(" 0"); break;
    case PLANNER_CELL_BUSY: printf(" -"); break;
    case PLANNER_CELL_REQUIRED: printf(" m%u", number); break;
    case PLANNER_CELL_REFINEMENT: printf(" o%u", number); break;
    case PLANNER_CELL_CALL: printf(" c%u", number); break;
    }
}

static void print_table(void)
{
    uint64_t bridges = frame[PLANNER_FRAME_BRIDGES];
    for (uint64_t s = 0; s < frame[PLANNER_FRAME_SLOTS]; s++) {
        printf("(slot %llu", (unsigned long long)(s + 1));
        for (uint64_t b = 0; b < bridges; b++) {
            print_cell(table[s * bridges + b]);
        }
        printf(")\n");
    }
}

/* The head is the first head_bytes bytes of the text, its lines the first head_lines. */
static void run(size_t length, size_t head_bytes, uint64_t head_lines)
{
    /* The head alone: read, planned, and left as a running frame at the first clock. */
    uint64_t end = 0;
    uint32_t cause = planner_run_text(text, head_bytes, frame, PLANNER_FRAME_NUMBERS, presets, sizeof presets, table, PLANNER_TABLE_CELLS, out, sizeof out, &end);
    if (cause != PLANNER_ACCEPTED) {
        print_refused(end, cause);
        return;
    }

    /* The same plan again, for its grants. */
    uint8_t grants[PLANNER_GRANTS_BYTES] = {0};
    cause = planner_plan(frame, PLANNER_FRAME_NUMBERS, presets, sizeof presets, table, PLANNER_TABLE_CELLS, grants, sizeof grants);
    if (cause != PLANNER_ACCEPTED) {
        print_refused(0, cause);
        return;
    }
    print_grants(grants);

    uint64_t lines = head_lines;
    for (size_t at = head_bytes, bytes; at < length; at += bytes) {
        uint64_t number = 0;
        bytes = line_length(text + at, length - at);
        lines++;
        cause = planner_event(frame, PLANNER_FRAME_NUMBERS, presets, sizeof presets, table, PLANNER_TABLE_CELLS, text + at, bytes, &number);
        if (cause != PLANNER_ACCEPTED) {
            print_refused(lines, cause);
        } else {
            print_accepted(text + at, number);
        }
    }
    print_table();
}

int main(int argc, char **argv)
{
    FILE *in = 1 < argc ? fopen(argv[1], "rb") : stdin;
    if (in == NULL) {
        perror(argv[1]);
        return 1;
    }
    size_t length = fread(text, 1, sizeof text, in);
    if (ferror(in)) {
        perror("the station file");
        return 1;
    }
    if (PLANNER_TEXT_BYTES < length) {
        print_refused(0, PLANNER_TEXT_TOO_LONG);
    } else {
        /*
         * The head ends before the first line that has an event's form, or with the text. A tie line on line 2 is the head's: either that is directly after the frame line, or line 1 is
         * refused. And so is one on line 3 after a supply line, or after a line that begins like one, which is refused.
         */
        size_t head_bytes = 0;
        uint64_t head_lines = 0;
        int tie_is_heads = 0;
        while (head_bytes < length) {
            const uint8_t *line = text + head_bytes;
            size_t bytes = line_length(line, length - head_bytes);
            if (is_event(line, bytes) && !(tie_is_heads && is_tie(line))) {
                break;
            }
            tie_is_heads = head_lines == 0 || (head_lines == 1 && is_supply(line, bytes));
            head_bytes += bytes;
            head_lines++;
        }
        run(length, head_bytes, head_lines);
    }
    if (fflush(stdout) != 0 || ferror(stdout)) {
        perror("the listing");
        return 1;
    }
    return 0;
}
