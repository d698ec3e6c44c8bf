/*
 * Busy times as rows of comma-separated text. With one file, or none, prints the rows of a station file, or of standard input. With a second file, of rows, puts these in place of
 * the station's busy times, plans anew, and prints what each preset is granted then, the first clock and the order of ties in force. A refusal is one line, with the line of the
 * station file or the row at fault.
 */
#include <stdio.h>
#include <string.h>

#include "planner.h"

/* One byte more than a text may have, so that a longer one is seen to be too long. */
static uint8_t text[PLANNER_TEXT_BYTES + 1];

static uint64_t frame[PLANNER_FRAME_NUMBERS];
static uint8_t presets[PLANNER_PRESETS_BYTES];
static planner_cell table[PLANNER_TABLE_CELLS];
static uint8_t out[PLANNER_OUT_BYTES];

/* Reads a file, or standard input where none is named, into the text. Answers whether that could be done. */
static int read_text(const char *name, size_t *length)
{
    FILE *in = name != NULL ? fopen(name, "rb") : stdin;
    if (in == NULL) {
        perror(name);
        return 0;
    }
    *length = fread(text, 1, sizeof text, in);
    if (ferror(in)) {
        perror(name != NULL ? name : "the station file");
        return 0;
    }
    return 1;
}

static void print_refused(uint64_t line, uint32_t cause)
{
    printf("(refused %llu %u)\n", (unsigned long long)line, (unsigned)cause);
}

static void print_rows(void)
{
    uint64_t bytes = 0;
    uint32_t cause = planner_write_rows(frame, PLANNER_FRAME_NUMBERS, presets, sizeof presets, out, sizeof out, &bytes);
    if (cause != PLANNER_ACCEPTED) {
        print_refused(0, cause);
        return;
    }
    fwrite(out, 1, bytes, stdout);
}

/* An event shows that the frame runs; the first clock changes nothing in it. */
static void print_start(void)
{
    static const char line[] = "(clock 0)\n";
    uint64_t now = 0;
    uint32_t cause = planner_event(frame, PLANNER_FRAME_NUMBERS, presets, sizeof presets, table, PLANNER_TABLE_CELLS, (const uint8_t *)line, strlen(line), &now);
    if (cause != PLANNER_ACCEPTED) {
        print_refused(0, cause);
        return;
    }
    printf("(now %llu)\n(tie %s)\n", (unsigned long long)now, frame[PLANNER_FRAME_TIE_NOW] == PLANNER_TIE_PLACE ? "place" : "hold");
}

/* The rows are the first length bytes of the text. */
static void plan_anew(size_t length)
{
    uint64_t row = 0;
    uint32_t cause = planner_read_rows(text, length, frame, PLANNER_FRAME_NUMBERS, presets, sizeof presets, &row);
    if (cause != PLANNER_ACCEPTED) {
        print_refused(row, cause);
        return;
    }
    /* The table was made for the old busy times: a new plan, at the first clock and with the head's order of ties in force, makes a running frame of it again. */
    uint8_t grants[PLANNER_GRANTS_BYTES] = {0};
    frame[PLANNER_FRAME_CLOCK] = 0;
    frame[PLANNER_FRAME_TIE_NOW] = frame[PLANNER_FRAME_TIE];
    cause = planner_plan(frame, PLANNER_FRAME_NUMBERS, presets, sizeof presets, table, PLANNER_TABLE_CELLS, grants, sizeof grants);
    if (cause != PLANNER_ACCEPTED) {
        print_refused(0, cause);
        return;
    }
    for (uint64_t i = 0; i < frame[PLANNER_FRAME_PRESETS]; i++) {
        printf("(granted %u %u)\n", presets[i * PLANNER_PRESET_BYTES + PLANNER_PRESET_NUMBER], grants[i]);
    }
    print_start();
}

int main(int argc, char **argv)
{
    size_t length = 0;
    if (!read_text(1 < argc ? argv[1] : NULL, &length)) {
        return 1;
    }
    uint64_t end = 0;
    uint32_t cause = planner_run_text(text, length, frame, PLANNER_FRAME_NUMBERS, presets, sizeof presets, table, PLANNER_TABLE_CELLS, out, sizeof out, &end);
    /* Where the required slots do not fit the head is there all the same, and with other busy times they may. */
    if (cause != PLANNER_ACCEPTED && cause != PLANNER_REQUIRED_DO_NOT_FIT) {
        print_refused(end, cause);
    } else if (argc <= 2) {
        print_rows();
    } else {
        if (!read_text(argv[2], &length)) {
            return 1;
        }
        plan_anew(length);
    }
    if (fflush(stdout) != 0 || ferror(stdout)) {
        perror("the rows");
        return 1;
    }
    return 0;
}
