/*
 * The bridge planner, for programs in C and C++ (and, by the same names and types, in Rust: examples/rust).
 *
 * x86-64 only, with the calling convention of Linux there. Link target/staticlib/libplanner.a, which bin/build planner writes.
 *
 * What is said below of each function, of its answer and of every byte that is handed over, is proved for every input (crates/planner/specs/Exports.antt). Not proved, but seen:
 *
 *   - The library needs memcpy and memset and nothing else: no heap, no files, no clock of its own, no state. So says nm of the library. That memcpy and memset do
 *     what C says of them is taken for granted.
 *   - No function was seen to use more than PLANNER_STACK_SEEN bytes of stack. This was measured by painting the stack, on the largest frames and texts, damaged ones too
 *     (bench/c/stack.c, which bin/check-all runs); nothing proves it. Leave room to spare.
 *   - That this header and the library's functions agree is checked by the programs in examples/, not proved.
 *
 * What the caller owes, for every pointer: it is not null, also where its length is 0; it is aligned for its type and valid for as many elements as its length says, for writing too where
 * it is not const; what one pointer of a call may write does not overlap what another one reads or writes. Nothing else is asked: any bytes and any numbers may be
 * handed over, and short buffers have their number.
 */
#ifndef PLANNER_H
#define PLANNER_H

#include <stddef.h>
#include <stdint.h>

/*
 * The version of the layout below and of what the numbers mean. Whoever stores a frame stores this beside it, and restores a frame of another version only as is said here.
 *
 * Version 4 had clocks from 1, and a call could use the clock's own slot. A frame that it stored is one of this version as it stands: its clock still says which slot is about to begin, but its
 * calls now use the slots above it alone. Where it is at clock 1 because it has not come to its first slot yet, it may be given clock 0, so that slot 1 can still be used. Version 3 had no supply
 * either, and did not look at the number at PLANNER_FRAME_SUPPLY. A frame that it stored has 0 there, as its header asked, which says that there is no supply line: what holds of a frame of version 4
 * holds of it. Version 2 had no orders of ties either: with PLANNER_TIE_PLACE at PLANNER_FRAME_TIE and at PLANNER_FRAME_TIE_NOW, and 0 at PLANNER_FRAME_SUPPLY, its frame is as one of version 4.
 * Version 1 had 12 numbers in a frame; its frames are not restored.
 *
 * A library of an older version must not be handed a frame of this one: at clock 0 it would answer 11, at another clock it would let a call use the slot that is about to begin, and up to version 3
 * it would plan past a supply. Later versions have wider cells (with the place of each cell in its preset or job) and something to say in the reserved number of a frame.
 */
#define PLANNER_VERSION 5

/* How many there are at most. */
#define PLANNER_MAX_SLOTS 64
#define PLANNER_MAX_BRIDGES 8
#define PLANNER_MAX_MOTORS 8 /* that a supply feeds in a slot */
#define PLANNER_MAX_PRESETS 32
#define PLANNER_MAX_CALL_JOBS 8 /* in one call */
#define PLANNER_MAX_JOBS 64     /* in a frame */

/* How long what is handed over has to be, counted in its elements. What stands past these makes no difference and is not changed. */
#define PLANNER_FRAME_NUMBERS 16 /* numbers of a frame */
#define PLANNER_TABLE_CELLS 512  /* cells of a table, whatever the frame's size */

/* The same in bytes; an output may be used as far as it goes. */
#define PLANNER_PRESETS_BYTES 128 /* PLANNER_MAX_PRESETS records */
#define PLANNER_GRANTS_BYTES 32   /* one for each of PLANNER_MAX_PRESETS */
#define PLANNER_OUT_BYTES 8192    /* an output */

/* Other sizes in bytes. */
#define PLANNER_TEXT_BYTES 32768     /* the longest text, of a station or of rows */
#define PLANNER_ROWS_BYTES 2240      /* the longest rows that planner_write_rows writes */
#define PLANNER_LISTING_BYTES 655360 /* an output that is so long has room for every listing */
#define PLANNER_STACK_SEEN 20500     /* see above: measured, not proved */

/*
 * Each function answers PLANNER_ACCEPTED or the number of a refusal. Causes are tried in the order in which a function's comment names them, and the first that holds is the answer.
 * docs/FORMAT.md has an example of each.
 */
enum planner_cause {
    PLANNER_ACCEPTED = 0,
    PLANNER_NO_FORM = 1,              /* a line that is not one of the seven forms, or lacks its end */
    PLANNER_OUT_OF_LIMITS = 2,        /* a value or busy stretch outside its limits, in a row outside the frame; a supply line, in its place, whose number is not 1 to 8; a
                                       * ninth job in a call; a clock outside 0 to S + 1; a head that no text yields, as one with a supply above 8 */
    PLANNER_OUT_OF_PLACE = 3,         /* a form out of its place, among them a supply line anywhere but directly after the frame line, whatever its number, and (tie place)
                                       * directly after the frame line or its supply line; no frame on line 1 */
    PLANNER_NUMBER_USED = 4,          /* a number already used, or twice in a call */
    PLANNER_REQUIRED_DO_NOT_FIT = 5,  /* the required slots do not fit */
    PLANNER_CLOCK_BACK = 6,           /* a clock below the present one */
    PLANNER_NO_PLACE = 7,             /* a call that does not fit */
    PLANNER_TOO_SHORT = 8,            /* frame, presets, table, output or grants shorter than they have to be */
    PLANNER_TOO_MANY = 9,             /* 33rd preset or 65th job */
    PLANNER_TEXT_TOO_LONG = 10,       /* text above 32,768 bytes */
    PLANNER_NOT_SOUND = 11,           /* a table that is not sound, as one is not that holds more cells of a slot for presets and calls than the supply feeds; or a clock in
                                       * the frame outside 0 to S + 1 */
    PLANNER_NO_ROW = 12               /* a row that is not three decimal fields with CR LF */
};

/* The places of a frame's numbers. */
enum planner_frame_place {
    PLANNER_FRAME_SLOTS = 0,   /* S, how many slots */
    PLANNER_FRAME_BRIDGES = 1, /* B, how many bridges */
    PLANNER_FRAME_PRESETS = 2, /* how many presets */
    PLANNER_FRAME_CLOCK = 3,   /* the slot that is about to begin: 0 at the start, before the first one, S + 1 after the last one; calls use the slots above it */
    PLANNER_FRAME_BUSY = 4,    /* the busy slots of bridge 1 as a mask, slot 1 being the lowest bit; those of bridges 2 to 8 follow */

    /*
     * The head's supply: how many motors it feeds in a slot, the k of the line (supply k), from 1 to PLANNER_MAX_MOTORS; 0 where the head has no such line, and then there is no cap. Each cell
     * of a preset or a call draws one motor, a busy or empty cell none. A number that is not below that of the bridges changes nothing, and is kept. One above PLANNER_MAX_MOTORS makes
     * a head that no text yields: 2, in every function that is handed a frame but planner_run_text, which writes the number and does not look at it.
     */
    PLANNER_FRAME_SUPPLY = 12,

    /* Two orders of ties, each one of enum planner_tie: who goes first among presets or jobs that have the same number of slots still to get. */
    PLANNER_FRAME_TIE = 13,     /* the head's, by which planner_plan plans: PLANNER_TIE_HOLD where (tie hold) stands directly after the frame line or its supply line */
    PLANNER_FRAME_TIE_NOW = 14, /* the one in force, by which the next call is placed; at the start the head's */

    /*
     * Reserved for a request to come: how many jobs were admitted (2026-06). This version does not look at it: whatever stands there, every answer is the same. planner_run_text leaves 0
     * there where the text ran, and nothing else writes there; a frame that a program makes itself has 0 there too if it is to be stored.
     */
    PLANNER_FRAME_JOBS = 15
};

/*
 * The orders of ties. Any number but PLANNER_TIE_PLACE is taken for PLANNER_TIE_HOLD. A text that ran leaves one of these two in both places. Otherwise a number
 * that already says the order to be written stays as it is.
 */
enum planner_tie {
    PLANNER_TIE_PLACE = 0, /* the earlier line, in a call the earlier job */
    PLANNER_TIE_HOLD = 1   /* those with a cell in the slot just before, then the earlier line or job */
};

/* The presets are records of PLANNER_PRESET_BYTES bytes, in file order; record i, from 0, begins at i * PLANNER_PRESET_BYTES. The places of a record's bytes: */
enum planner_preset_place {
    PLANNER_PRESET_NUMBER = 0,
    PLANNER_PRESET_PRIORITY = 1,   /* 0 is best */
    PLANNER_PRESET_REQUIRED = 2,   /* required slots */
    PLANNER_PRESET_REFINEMENT = 3, /* refinement slots */
    PLANNER_PRESET_BYTES = 4
};

/*
 * A table is cells, slot by slot and in each slot bridge by bridge: slot s and bridge b, both from 0, are the cell at s * B + b. Cells past S * B are never changed. A cell has a kind
 * and the number of the preset or job that has it, 0 if it is empty or busy.
 */
typedef uint16_t planner_cell;

enum planner_kind {
    PLANNER_CELL_EMPTY = 0,
    PLANNER_CELL_BUSY = 1,
    PLANNER_CELL_REQUIRED = 2,
    PLANNER_CELL_REFINEMENT = 3,
    PLANNER_CELL_CALL = 4
};

#define PLANNER_CELL_KIND(cell) ((cell) / 256)
#define PLANNER_CELL_NUMBER(cell) ((cell) % 256)

#ifdef __cplusplus
extern "C" {
#endif

/* The library's PLANNER_VERSION. */
uint32_t planner_version(void);

/* The same: a program that refers to it does not link with a library of another version. */
uint32_t planner_layout_5(void);

/*
 * Runs a whole station text: its head, the plan of it, then every line after the head as an event.
 *
 * Causes: 10; 8 of the frame, the presets, the output and the table; those of the head's lines, of which the first line at fault decides: 1, 3, 2, 4, 9; 5.
 *
 * 0: the listing stands at the start of the output, as far as it has room for it; bytes past it are as they were. *end is the smaller of out_len and the number of the listing's bytes: below
 * out_len the listing is whole; equal to it, the listing may have been cut, unless out_len is PLANNER_LISTING_BYTES or more, when no listing is. The frame has the head, its
 * supply included, the clock and the order of ties in force that the text left, and 0 for its reserved number, the presets its records, the table its cells: a running frame for
 * planner_event, also where the listing was cut. Records past the last preset are as they were. A line after the head that is refused has its line in the listing, changes nothing, and does
 * not end the text.
 * Else *end is the line at fault, 0 for 10 and 8, and nothing else changes; but 5 (its line is the last of the head) leaves the head, its supply included, in the frame and its
 * records in the presets, and clock, order of ties in force, reserved number, table and output as they were.
 */
uint32_t planner_run_text(const uint8_t *text, size_t text_len,
                          uint64_t *frame, size_t frame_len,
                          uint8_t *presets, size_t presets_len,
                          planner_cell *table, size_t table_len,
                          uint8_t *out, size_t out_len,
                          uint64_t *end);

/*
 * One event line, (clock t), (call (n c) ..), (tie hold) or (tie place), its byte 10 included, on the running frame.
 *
 * Causes: 8 of the frame, the presets and the table; 2 of the head; 11; those of the line: 1, 3; of a clock 2, 6; of a call 2, 4, 9, 7; of a tie none. It is 7 exactly when none before it
 * holds and the call has no place at all.
 *
 * 0: the clock in the frame, the order of ties in force, or the table, is the new one, and *number is the clock t (of a clock), PLANNER_TIE_HOLD or PLANNER_TIE_PLACE (of a tie),
 * or how many refinement cells were lost (of a call). A call is placed in the slots above the clock, and every cell of the slots up to it stays: the relays are thrown a slot ahead, so the slot
 * that is about to begin is already lost to a call. It is placed by the order in force; on this frame it would cost the same under the other. No other place of the call
 * loses fewer, in all or among the presets of any one priority and better. Under a supply a lost cell may end empty while a job takes another bridge of its slot; it is lost and counted all
 * the same. (No frame is known where that happens in a table that this library planned and calls then changed; that there is none is not proved.) A running frame stays one, so that 11 is never met after it.
 * Else *number is 0, and nothing else changes.
 */
uint32_t planner_event(uint64_t *frame, size_t frame_len,
                       const uint8_t *presets, size_t presets_len,
                       planner_cell *table, size_t table_len,
                       const uint8_t *line, size_t line_len,
                       uint64_t *number);

/*
 * Plans a fresh frame, within the head's supply and by its order of ties. The clock and the order in force are not looked at. With frame[PLANNER_FRAME_CLOCK] = 0 and
 * frame[PLANNER_FRAME_TIE_NOW] = frame[PLANNER_FRAME_TIE], frame, presets and the table that is left are a running frame for planner_event, as planner_run_text would start it.
 *
 * Causes: 8 of the frame, the presets, the grants and the table; 2 of the head; 5. It is 5 exactly when no valid plan exists.
 *
 * 0: the grants of the presets, in refinement slots, stand at the start of grants in file order, with 0 past the last preset up to PLANNER_MAX_PRESETS; bytes past those are as they
 * were. The table is the plan. For every k, no other valid plan gives the first k presets by rank more refinement.
 * Else nothing changes.
 */
uint32_t planner_plan(const uint64_t *frame, size_t frame_len,
                      const uint8_t *presets, size_t presets_len,
                      planner_cell *table, size_t table_len,
                      uint8_t *grants, size_t grants_len);

/*
 * The listing of a whole station text, at the start of the output, as far as it has room for it; bytes past it are as they were. A head or a plan that is
 * refused has its one refused line for a listing.
 *
 * Causes: 10; 8 of the output and the table.
 *
 * 0: *bytes is the smaller of out_len and the number of the listing's bytes, which tells a cut listing as in planner_run_text. The table is the one that the text left.
 * Else *bytes is 0, and nothing else changes.
 */
uint32_t planner_listing(const uint8_t *text, size_t text_len,
                         planner_cell *table, size_t table_len,
                         uint8_t *out, size_t out_len,
                         uint64_t *bytes);

/*
 * Puts busy times that stand in rows of comma-separated text in place of the frame's. A row is bridge, first slot, last slot, each bare or in quotes, and ends with CR LF; there is no
 * header. Rows may come in any sequence and may overlap or touch: a slot of a bridge is busy exactly if some row takes it. No row at all leaves no busy slot.
 *
 * Causes: 10; 8 of the frame and the presets; 2 of the head; those of the rows, of which the first row at fault decides: 12, 2.
 *
 * 0: the masks at PLANNER_FRAME_BUSY are those of the rows, every other number of the frame is as it was, and *row is how many rows there are. No table is touched: one that was made
 * for the old busy times does not suit the new ones, and planner_event may meet 11 with it. Plan the frame again with planner_plan, which may meet 5,
 * and set the clock to 0 and the order of ties in force to the head's.
 * Else *row is the row at fault, counted from 1, 0 for 10, 8 and the head's 2, and nothing else changes.
 */
uint32_t planner_read_rows(const uint8_t *text, size_t text_len,
                           uint64_t *frame, size_t frame_len,
                           const uint8_t *presets, size_t presets_len,
                           uint64_t *row);

/*
 * The busy times of the frame as rows, at the start of the output: bare, by bridge and then by slot, one for each run of busy slots; bytes past them are as they were. The
 * clock and the orders of ties are not looked at.
 *
 * Causes: 8 of the frame, the presets and the output; 2 of the head.
 *
 * 0: *bytes is the number of the rows' bytes, at most PLANNER_ROWS_BYTES. planner_read_rows puts the same busy times into any frame of as many slots and bridges.
 * Else *bytes is 0, and nothing else changes.
 */
uint32_t planner_write_rows(const uint64_t *frame, size_t frame_len,
                            const uint8_t *presets, size_t presets_len,
                            uint8_t *out, size_t out_len,
                            uint64_t *bytes);

#ifdef __cplusplus
}
#endif

#endif
