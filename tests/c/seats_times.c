/* The time of a dispatch beside that of a call of next of one reading, and the bytes that both copy (docs/PERFORMANCE.md, "Eight seats"); not part of
 * the gate:
 *
 *     gcc -std=c99 -O2 -Iinclude tests/c/seats_times.c target/staticlib/libbaxhiso.a -Wl,--wrap=memcpy -o target/c/seats_times
 *     target/c/seats_times FILE
 *
 * The copies are counted where the library calls memcpy, which the linker is told to take from here. */
#define _POSIX_C_SOURCE 200809L
#include <stdio.h>
#include <string.h>
#include <time.h>

#include "baxhiso.h"

#define LONGEST ((size_t)1 << 20)
#define TURNS 200000

void *__real_memcpy(void *to, const void *from, size_t n);
void *__wrap_memcpy(void *to, const void *from, size_t n);

static int counting;
static unsigned long copied, copies;

void *__wrap_memcpy(void *to, const void *from, size_t n)
{
    if (counting) {
        copied += n;
        copies++;
    }
    return __real_memcpy(to, from, n);
}

static double now(void)
{
    struct timespec t;
    clock_gettime(CLOCK_MONOTONIC, &t);
    return (double)t.tv_sec * 1e9 + (double)t.tv_nsec;
}

static uint8_t file[LONGEST], key[FST_KEY_SPACE];
static uint16_t depths[LONGEST];
static uint64_t sums[LONGEST], counts[LONGEST], value;
static size_t file_len, seat, len;
static fst_reading first, reading;
static fst_seats seats;

static void all_seated(void)
{
    fst_clear_seats(&seats);
    for (size_t i = 0; i < FST_SEATS; i++)
        fst_seat(&seats, i, &first);
}

/* A reading at its end begins again. */
static double next_time(void)
{
    double from = now();
    reading = first;
    for (size_t i = 0; i < TURNS; i++) {
        if (fst_next(file, file_len, &reading, key, sizeof key, &len, &value) != FST_OK)
            reading = first;
    }
    return (now() - from) / TURNS;
}

static double raise_time(int with_dispatch)
{
    double from = now();
    for (size_t i = 0; i < TURNS; i++) {
        fst_raise(&seats, i % FST_SEATS);
        if (with_dispatch && fst_dispatch(file, file_len, &seats, key, sizeof key, &seat, &len, &value) != FST_OK)
            fst_seat(&seats, seat, &first);
    }
    return (now() - from) / TURNS;
}

static void copies_of_100(const char *name, int dispatch)
{
    copied = copies = 0;
    for (size_t i = 0; i < 100; i++) {
        fst_raise(&seats, i % FST_SEATS);
        counting = 1;
        if (dispatch)
            fst_dispatch(file, file_len, &seats, key, sizeof key, &seat, &len, &value);
        else
            fst_next(file, file_len, &reading, key, sizeof key, &len, &value);
        counting = 0;
    }
    printf("%s copies %.0f bytes in %.0f copies\n", name, (double)copied / 100, (double)copies / 100);
}

int main(int argc, char **argv)
{
    FILE *in = argc > 1 ? fopen(argv[1], "rb") : NULL;
    if (in == NULL) {
        fprintf(stderr, "usage: seats_times FILE\n");
        return 2;
    }
    file_len = fread(file, 1, sizeof file, in);
    fclose(in);
    if (fst_count(file, file_len, depths, LONGEST, sums, LONGEST, counts, LONGEST) != FST_OK ||
        fst_start(file, file_len, NULL, NULL, counts, LONGEST, &first) != FST_OK) {
        fprintf(stderr, "%s: refused\n", argv[1]);
        return 1;
    }
    for (int round = 0; round < 5; round++) {
        double next = next_time(), both, raise;
        all_seated();
        both = raise_time(1);
        raise = raise_time(0);
        printf("fst_next %.0f ns, fst_dispatch %.0f ns, fst_raise %.0f ns: a dispatch is %.2f times a next\n", next, both - raise, raise, (both - raise) / next);
    }
    all_seated();
    reading = first;
    copies_of_100("fst_next", 0);
    copies_of_100("fst_dispatch", 1);
    return 0;
}
