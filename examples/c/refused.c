/*
 * The refusals that no station file meets, since they are about what a program hands over: 8, 11, and 2 for a frame that no text yields. Prints what each was, and the number.
 */
#include <stdio.h>
#include <string.h>

#include "planner.h"

static const char call[] = "(call (5 1))\n";

/* A running frame of two slots and one bridge, without presets, at clock 0, the first. */
static uint64_t frame[PLANNER_FRAME_NUMBERS];
static uint8_t presets[PLANNER_PRESETS_BYTES];
static planner_cell table[PLANNER_TABLE_CELLS];

static void begin(void)
{
    memset(frame, 0, sizeof frame);
    memset(table, 0, sizeof table);
    frame[PLANNER_FRAME_SLOTS] = 2;
    frame[PLANNER_FRAME_BRIDGES] = 1;
}

/* The answer to the call, with a frame and a table of so many numbers and cells. */
static void answer(const char *what, size_t numbers, size_t cells)
{
    uint64_t lost = 0;
    uint32_t cause = planner_event(frame, numbers, presets, sizeof presets, table, cells, (const uint8_t *)call, strlen(call), &lost);
    printf("%s: %u\n", what, (unsigned)cause);
}

int main(void)
{
    begin();
    answer("a frame of 15 numbers", PLANNER_FRAME_NUMBERS - 1, PLANNER_TABLE_CELLS);
    begin();
    answer("a table of 511 cells", PLANNER_FRAME_NUMBERS, PLANNER_TABLE_CELLS - 1);
    begin();
    frame[PLANNER_FRAME_SLOTS] = PLANNER_MAX_SLOTS + 1;
    answer("a frame of 65 slots", PLANNER_FRAME_NUMBERS, PLANNER_TABLE_CELLS);
    begin();
    frame[PLANNER_FRAME_SUPPLY] = PLANNER_MAX_MOTORS + 1;
    answer("a supply of 9 motors", PLANNER_FRAME_NUMBERS, PLANNER_TABLE_CELLS);
    begin();
    frame[PLANNER_FRAME_CLOCK] = 4;
    answer("the clock at 4 in a frame of two slots", PLANNER_FRAME_NUMBERS, PLANNER_TABLE_CELLS);
    begin();
    table[0] = PLANNER_CELL_REQUIRED * 256 + 1;
    answer("a required cell of a preset that is not there", PLANNER_FRAME_NUMBERS, PLANNER_TABLE_CELLS);
    begin();
    frame[PLANNER_FRAME_BRIDGES] = 2;
    frame[PLANNER_FRAME_SUPPLY] = 1;
    table[0] = PLANNER_CELL_CALL * 256 + 1;
    table[1] = PLANNER_CELL_CALL * 256 + 2;
    answer("two jobs in a slot whose supply feeds one motor", PLANNER_FRAME_NUMBERS, PLANNER_TABLE_CELLS);
    begin();
    answer("a frame that is sound", PLANNER_FRAME_NUMBERS, PLANNER_TABLE_CELLS);
    return 0;
}
