/* Measures the stack that each function of include/baxhiso.h takes, and holds the header's numbers to it:
 *
 *     stack FILE...
 *
 * Each call is made on a stack of its own, which is painted before and looked at afterwards: from the caller's frame down to the last byte
 * that was painted over. The files are admitted ones and others, so that the ways through each function are taken. */
#define _XOPEN_SOURCE 700
#include <stdio.h>
#include <stdlib.h>
#include <string.h>
#include <ucontext.h>

#include "baxhiso.h"

#define PAINT 0x5C
#define LONGEST 70000

static uint8_t stack[1 << 20];
static ucontext_t back, there;

static uint8_t file[LONGEST];
static size_t file_len;
static uint16_t depths[LONGEST];
static uint64_t sums[LONGEST], counts[LONGEST];
static uint8_t out[4 * LONGEST];
static uint32_t table[LONGEST];
static fst_cell cells[64];
static uint8_t inputs[FST_PACK_TABLE];
static uint64_t leasts[FST_PACK_TABLE];
static size_t targets[FST_PACK_TABLE];
/* ax: 1, bx: 3, e: 4; the node behind a is found again behind b */
static const uint8_t pairs[] = { 3, 0, 0, 0, 5, 0, 0, 0, 2, 0, 0, 0, 4, 0, 0, 0, 5, 0, 0, 0, 1, 0, 0, 0, 0, 0, 0, 0, 3, 0, 0, 0, 0, 0, 0, 0, 4, 0, 0, 0, 0, 0, 0, 0, 'a', 'x', 'b', 'x', 'e' };
static fst_reading reading;
static fst_seats seats;
static size_t seat;
static fst_row rows[8];
static uint64_t values[8];
static uint8_t item_counts[8], numbers[8][FST_FILES];
static uint64_t item_values[8][FST_FILES];
static uint8_t key[FST_KEY_SPACE], bound_key[] = { 'a', 't' };
static size_t len;
static uint64_t value;
static fst_meta meta;
static const fst_bound bound = { FST_EXCLUDED, bound_key, 2 };

static void call_open(void) { fst_open(file, file_len, &meta); }
static void call_get(void) { fst_get(file, file_len, bound_key, 2, &value); fst_get(file, file_len, key, len, &value); }
static void call_get_key(void) { fst_get_key(file, file_len, value, key, sizeof key, &len); }
static void call_admit(void) { fst_admit(file, file_len, depths, file_len, sums, file_len); }
static void call_count(void) { fst_count(file, file_len, depths, file_len, sums, file_len, counts, file_len); }
static void call_start(void) { fst_start(file, file_len, NULL, &bound, counts, file_len, &reading); fst_start(file, file_len, &bound, NULL, counts, file_len, &reading); }
static void call_next(void) { fst_next(file, file_len, &reading, key, sizeof key, &len, &value); }
static void call_range(void) { fst_range(file, file_len, NULL, &bound, 8, rows, values, &len); fst_range(file, file_len, &bound, NULL, 8, rows, values, &len); }
static const uint16_t positions[] = { 'a', FST_ANY_BYTE };
static void call_find(void) { fst_find(file, file_len, positions, 2, 0, NULL, &bound, 8, rows, values, &len); fst_find(file, file_len, positions, 0, 1, &bound, NULL, 8, rows, values, &len); }
static void call_convert(void) { fst_convert(file, file_len, depths, file_len, sums, file_len, out, sizeof out, table, file_len, &len); }
static void call_pack(void) { fst_pack(pairs, sizeof pairs, out, 100, cells, 64, inputs, FST_PACK_TABLE, leasts, FST_PACK_TABLE, targets, FST_PACK_TABLE, &len); }
static void call_carry(void) { fst_carry(file, file_len, file, file_len, &reading); }

static void call_seat(void) { fst_seat(&seats, 3, &reading); fst_raise(&seats, 3); }
static void call_dispatch(void) { fst_dispatch(file, file_len, &seats, key, sizeof key, &seat, &len, &value); }

static void call_items(void)
{
    const fst_file one = { file, file_len };
    const fst_file files[FST_FILES] = { one, one, one, one, one, one, one, one };
    fst_items(FST_UNION, files, FST_FILES, NULL, &bound, 8, rows, item_counts, numbers, item_values, &len);
    fst_items(FST_UNION, files, 2, &bound, NULL, 8, rows, item_counts, numbers, item_values, &len);
    /* an operation that passes over every key would not end where a few hundred bytes hold 2^60 keys */
    for (uint64_t op = FST_INTERSECTION; file_len <= 64 && op <= FST_SYMMETRIC_DIFFERENCE; op++)
        fst_items(op, files, FST_FILES, NULL, NULL, 8, rows, item_counts, numbers, item_values, &len);
}

static void (*to_call)(void);
static size_t used;

/* On the painted stack: the call, and then at once a look at what lies below. */
static void measured(void)
{
    volatile uint8_t here = 0;
    size_t i = here;
    to_call();
    while (stack[i] == PAINT)
        i++;
    used = (size_t)(&here - (stack + i));
}

static size_t taken(void (*call)(void))
{
    to_call = call;
    memset(stack, PAINT, sizeof stack);
    getcontext(&there);
    there.uc_stack.ss_sp = stack;
    there.uc_stack.ss_size = sizeof stack;
    there.uc_link = &back;
    makecontext(&there, measured, 0);
    swapcontext(&back, &there);
    return used;
}

int main(int argc, char **argv)
{
    static const struct {
        const char *name;
        void (*call)(void);
        size_t said;
    } functions[] = {
        { "fst_open", call_open, FST_STACK_OPEN },    { "fst_get", call_get, FST_STACK_GET },       { "fst_get_key", call_get_key, FST_STACK_GET_KEY },
        { "fst_admit", call_admit, FST_STACK_ADMIT }, { "fst_count", call_count, FST_STACK_COUNT }, { "fst_start", call_start, FST_STACK_START },
        { "fst_next", call_next, FST_STACK_NEXT },    { "fst_range", call_range, FST_STACK_RANGE },   { "fst_find", call_find, FST_STACK_FIND },
        { "fst_convert", call_convert, FST_STACK_CONVERT }, { "fst_pack", call_pack, FST_STACK_PACK },       { "fst_carry", call_carry, FST_STACK_CARRY },
        { "fst_seat", call_seat, FST_STACK_SEAT },    { "fst_dispatch", call_dispatch, FST_STACK_DISPATCH },
        { "fst_items", call_items, FST_STACK_ITEMS },
    };
    size_t most[sizeof functions / sizeof *functions] = { 0 };
    int differences = 0;
    for (int i = 1; i < argc; i++) {
        FILE *in = fopen(argv[i], "rb");
        if (in == NULL) {
            perror(argv[i]);
            return 2;
        }
        file_len = fread(file, 1, sizeof file, in);
        fclose(in);
        if (file_len == sizeof file)
            continue;
        memset(counts, 0, sizeof counts);
        fst_clear_seats(&seats);
        for (int again = 0; again < 3; again++) {
            for (size_t f = 0; f < sizeof functions / sizeof *functions; f++) {
                size_t n = taken(functions[f].call);
                most[f] = n > most[f] ? n : most[f];
            }
        }
    }
    for (size_t f = 0; f < sizeof functions / sizeof *functions; f++) {
        int right = most[f] <= functions[f].said;
        differences += !right;
        printf("%s %lu bytes of stack%s\n", functions[f].name, (unsigned long)most[f], right ? "" : ": more than the header says");
    }
    return differences > 0;
}
