/*
 * How much stack the library's functions use: runs each of them on the texts that are named, on a stack that was painted before, and looks how far the paint is gone. Prints the most bytes
 * seen for each function, and ends with status 1 if one is above PLANNER_STACK_SEEN. Nothing is proved by it.
 */
#define _GNU_SOURCE
#include <pthread.h>
#include <stdint.h>
#include <stdio.h>
#include <string.h>
#include <sys/mman.h>

#include "planner.h"

#define STACK ((size_t)1 << 17)
#define PAINT 0xA5

static uint8_t *stack;

static uint8_t text[PLANNER_TEXT_BYTES + 1];
static size_t length;
static uint64_t frame[PLANNER_FRAME_NUMBERS];
static uint8_t presets[PLANNER_PRESETS_BYTES];
static planner_cell table[PLANNER_TABLE_CELLS];
static uint8_t out[PLANNER_LISTING_BYTES];
static uint8_t grants[PLANNER_GRANTS_BYTES];
static const uint8_t *line;
static size_t line_length;

static uint64_t number;
static volatile uint32_t answer;

static void run_text(void)
{
    answer = planner_run_text(text, length, frame, PLANNER_FRAME_NUMBERS, presets, sizeof presets, table, PLANNER_TABLE_CELLS, out, sizeof out, &number);
}

static void event(void)
{
    answer = planner_event(frame, PLANNER_FRAME_NUMBERS, presets, sizeof presets, table, PLANNER_TABLE_CELLS, line, line_length, &number);
}

static void plan(void)
{
    answer = planner_plan(frame, PLANNER_FRAME_NUMBERS, presets, sizeof presets, table, PLANNER_TABLE_CELLS, grants, sizeof grants);
}

static void listing(void)
{
    answer = planner_listing(text, length, table, PLANNER_TABLE_CELLS, out, sizeof out, &number);
}

static void read_rows(void)
{
    answer = planner_read_rows(line, line_length, frame, PLANNER_FRAME_NUMBERS, presets, sizeof presets, &number);
}

static void write_rows(void)
{
    answer = planner_write_rows(frame, PLANNER_FRAME_NUMBERS, presets, sizeof presets, out, sizeof out, &number);
}

static struct {
    const char *name;
    void (*run)(void);
    size_t most;
} functions[] = {
    {"planner_run_text", run_text, 0}, {"planner_event", event, 0}, {"planner_plan", plan, 0}, {"planner_listing", listing, 0},
    {"planner_read_rows", read_rows, 0}, {"planner_write_rows", write_rows, 0},
};

static uintptr_t top;

/* Paints all of the stack below this call but a little for memset itself, and runs a function below it. */
static void *painted(void *function)
{
    uint8_t here = 0;
    top = (uintptr_t)&here;
    memset(stack, PAINT, top - (uintptr_t)stack - 1024);
    functions[(size_t)(uintptr_t)function].run();
    return NULL;
}

/* The stack below `painted` that function i has used. */
static void measure(size_t i)
{
    pthread_attr_t attributes;
    pthread_t thread;
    pthread_attr_init(&attributes);
    pthread_attr_setstack(&attributes, stack, STACK);
    if (pthread_create(&thread, &attributes, painted, (void *)(uintptr_t)i) != 0) {
        perror("pthread_create");
        return;
    }
    pthread_join(thread, NULL);
    pthread_attr_destroy(&attributes);
    size_t clean = 0;
    while (stack[clean] == PAINT) {
        clean++;
    }
    size_t used = top - (uintptr_t)(stack + clean);
    if (functions[i].most < used) {
        functions[i].most = used;
    }
}

/* Every function on one text; its first events one by one too, on a fresh plan of its head, and at last its rows, written and read. */
static void measure_text(void)
{
    measure(3);
    measure(0);
    if (answer != PLANNER_ACCEPTED) {
        return;
    }
    measure(2);
    frame[PLANNER_FRAME_CLOCK] = 0;
    size_t tried = 0;
    for (size_t at = 0; at < length && tried < 40; at += line_length) {
        const uint8_t *end = memchr(text + at, '\n', length - at);
        line = text + at;
        line_length = end == NULL ? length - at : (size_t)(end - line) + 1;
        measure(1);
        /* The head's own lines do not count: they are out of their place here, and nothing is placed for them. */
        tried += answer != PLANNER_OUT_OF_PLACE;
    }
    measure(5);
    line = out;
    line_length = (size_t)number;
    measure(4);
}

int main(int argc, char **argv)
{
    stack = mmap(NULL, STACK, PROT_READ | PROT_WRITE, MAP_PRIVATE | MAP_ANONYMOUS, -1, 0);
    if (stack == MAP_FAILED) {
        perror("mmap");
        return 1;
    }
    for (int i = 1; i < argc; i++) {
        FILE *in = fopen(argv[i], "rb");
        if (in == NULL) {
            perror(argv[i]);
            return 1;
        }
        length = fread(text, 1, sizeof text, in);
        fclose(in);
        measure_text();
    }
    int over = 0;
    for (size_t i = 0; i < sizeof functions / sizeof functions[0]; i++) {
        printf("%s: %zu bytes of stack\n", functions[i].name, functions[i].most);
        over |= PLANNER_STACK_SEEN < functions[i].most;
    }
    return over;
}
