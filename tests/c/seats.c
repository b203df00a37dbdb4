/* Eight seats on one index (include/baxhiso.h):
 *
 *     seats CALLS FILE...
 *
 * rows       each result of fst_seat, fst_raise and fst_dispatch, and every byte afterwards
 * displays   eight displays on one index, driven at random: each has the keys of a reading of its own, and none waits longer than eight dispatches
 *            that are not refused
 * damage     so many dispatches on damaged files and made states
 *
 * Every buffer that is lent ends at a page without access. What a refusal is to leave is compared byte by byte. */
#define _DEFAULT_SOURCE
#include <stdio.h>
#include <stdlib.h>
#include <string.h>
#include <sys/mman.h>

#include "baxhiso.h"

#define PAGE ((size_t)4096)
#define LONGEST ((size_t)4100)
#define MARK 0xA5

static unsigned long differences;
static const char *row = "";

static void expect(int holds, const char *what)
{
    if (!holds && differences++ < 20)
        printf("seats: %s: %s\n", row, what);
}

/* numbers that look random, the same in every run */
static uint64_t state = UINT64_C(0x9E3779B97F4A7C15);

static uint64_t any(void)
{
    state ^= state << 13;
    state ^= state >> 7;
    state ^= state << 17;
    return state;
}

static size_t below(size_t n)
{
    return (size_t)(any() % n);
}

static int one_in(size_t n)
{
    return below(n) == 0;
}

/* ---- buffers that end at a page without access */

static uint8_t *guarded(size_t bytes)
{
    size_t pages = (bytes + PAGE - 1) / PAGE * PAGE;
    uint8_t *p = mmap(NULL, pages + 2 * PAGE, PROT_READ | PROT_WRITE, MAP_PRIVATE | MAP_ANONYMOUS, -1, 0);
    if (p == MAP_FAILED || mprotect(p, PAGE, PROT_NONE) != 0 || mprotect(p + PAGE + pages, PAGE, PROT_NONE) != 0) {
        perror("seats: no guarded buffer");
        exit(2);
    }
    return p + PAGE + pages;
}

static uint8_t *file_end, *key_end;
static fst_seats *seats;
static size_t *seat, *len;
static uint64_t *value;

static void lend(void)
{
    file_end = guarded(LONGEST);
    key_end = guarded(300);
    seats = (fst_seats *)(guarded(sizeof *seats) - sizeof *seats);
    seat = (size_t *)(guarded(sizeof *seat) - sizeof *seat);
    len = (size_t *)(guarded(sizeof *len) - sizeof *len);
    value = (uint64_t *)(guarded(sizeof *value) - sizeof *value);
}

/* ---- a file, with its table of keys */

typedef struct card {
    uint8_t bytes[LONGEST];
    size_t len;
    uint64_t counts[LONGEST];
} card;

static uint16_t depths[LONGEST];
static uint64_t sums[LONGEST];

static int admitted(card *c)
{
    memset(c->counts, 0, sizeof c->counts);
    return fst_count(c->bytes, c->len, depths, LONGEST, sums, LONGEST, c->counts, LONGEST) == FST_OK;
}

static const uint8_t *at_the_end(const card *c)
{
    memcpy(file_end - c->len, c->bytes, c->len);
    return file_end - c->len;
}

/* ---- one dispatch, with all that it leaves */

static unsigned long dispatches;

static int32_t dispatch(const card *c, size_t space)
{
    static fst_seats before;
    static const int results[] = { FST_OK, FST_END, FST_NONE, FST_ERR_SHORT, FST_ERR_VERSION, FST_ERR_ROOT, FST_ERR_STATE, FST_ERR_SPACE, FST_ERR_NODE,
        FST_ERR_DEEP, FST_ERR_SUM, FST_ERR_SEAT };
    const uint8_t *file = at_the_end(c);
    uint8_t *key = key_end - space;
    int32_t result;
    size_t i, known = 0, written;
    before = *seats;
    memset(key, MARK, space);
    *seat = 77;
    *len = 777;
    *value = 7777;
    dispatches++;
    result = fst_dispatch(file, c->len, seats, key, space, seat, len, value);
    for (i = 0; i < sizeof results / sizeof *results; i++)
        known += results[i] == result;
    expect(known == 1, "another number is answered");
    expect(c->len == 0 || memcmp(file, c->bytes, c->len) == 0, "the file is written");
    written = result == FST_OK ? *len : 0;
    for (i = written; i < space; i++)
        expect(key[i] == MARK, "a byte behind the key is written");
    expect(result == FST_OK || (*len == 777 && *value == 7777), "a length or a value without a key");
    if (result != FST_OK && result != FST_END) {
        expect(memcmp(&before, seats, sizeof before) == 0 && *seat == 77, "nobody is served, and something is written");
        return result;
    }
    expect(*seat < FST_SEATS && seats->last == *seat && before.waiting[*seat] != 0 && seats->waiting[*seat] == 0, "another seat than the one served");
    for (i = (before.last + 1) % FST_SEATS; i != *seat; i = (i + 1) % FST_SEATS)
        expect(before.waiting[i] == 0, "a waiting seat is passed over");
    for (i = 0; i < FST_SEATS; i++) {
        if (i != *seat)
            expect(before.waiting[i] == seats->waiting[i] && memcmp(before.heads[i], seats->heads[i], sizeof before.heads[i]) == 0 &&
                   before.keys[i] == seats->keys[i] && memcmp(before.outs[i], seats->outs[i], sizeof before.outs[i]) == 0 &&
                   memcmp(before.addrs[i], seats->addrs[i], sizeof before.addrs[i]) == 0 &&
                   memcmp(before.trans[i], seats->trans[i], sizeof before.trans[i]) == 0 &&
                   memcmp(before.inps[i], seats->inps[i], sizeof before.inps[i]) == 0 &&
                   memcmp(before.bounds[i], seats->bounds[i], sizeof before.bounds[i]) == 0, "another seat is written");
        expect(before.taken[i] == seats->taken[i], "a dispatch takes a seat");
    }
    return result;
}

static void served(const card *c, size_t number, const char *key)
{
    int32_t result = dispatch(c, 255);
    if (key == NULL)
        expect(result == FST_END && *seat == number, "not this seat's end");
    else
        expect(result == FST_OK && *seat == number && *len == strlen(key) && memcmp(key_end - 255, key, *len) == 0, "not this seat with this key");
}

/* ---- rows */

static void seated(const card *c, size_t number)
{
    fst_reading reading;
    expect(fst_start(c->bytes, c->len, NULL, NULL, c->counts, c->len, &reading) == FST_OK, "fst_start");
    expect(fst_seat(seats, number, &reading) == FST_OK, "fst_seat");
}

static void all_seated(const card *c)
{
    memset(seats, MARK, sizeof *seats);
    fst_clear_seats(seats);
    for (size_t i = 0; i < FST_SEATS; i++)
        seated(c, i);
}

/* A refusal of seating and raising leaves every byte. */
static void refused(int32_t result, const fst_seats *before)
{
    expect(result == FST_ERR_SEAT, "not refused");
    expect(memcmp(before, seats, sizeof *before) == 0, "refused, and something is written");
}

static void rows(const card *d, const card *other)
{
    static fst_seats before;
    static const card nothing;
    fst_reading reading;

    row = "nobody";
    memset(seats, MARK, sizeof *seats);
    fst_clear_seats(seats);
    before = *seats;
    expect(fst_dispatch(NULL, 0, seats, NULL, 0, seat, len, value) == FST_NONE, "with no file and no buffer");
    expect(memcmp(&before, seats, sizeof before) == 0, "something is written");

    row = "all in turn";
    all_seated(d);
    for (size_t i = 0; i < FST_SEATS; i++)
        expect(fst_raise(seats, i) == FST_OK, "fst_raise");
    for (size_t i = 0; i < FST_SEATS; i++)
        served(d, i, "a");
    expect(dispatch(d, 255) == FST_NONE, "somebody waits");

    row = "around the end";
    seats->last = 6;
    fst_raise(seats, 6);
    fst_raise(seats, 1);
    served(d, 1, "at");
    served(d, 6, "at");

    row = "a short buffer";
    fst_raise(seats, 3);
    expect(dispatch(d, 254) == FST_ERR_SPACE, "not refused");
    served(d, 3, "at");

    row = "a reading of another file";
    expect(fst_start(other->bytes, other->len, NULL, NULL, other->counts, other->len, &reading) == FST_OK, "fst_start");
    expect(fst_seat(seats, 5, &reading) == FST_OK, "fst_seat");
    fst_raise(seats, 5);
    fst_raise(seats, 6);
    for (int i = 0; i < 3; i++)
        expect(dispatch(d, 255) == FST_ERR_STATE, "the turn is passed on");
    seated(d, 5);
    served(d, 5, "a");
    served(d, 6, "e");

    row = "the end";
    fst_raise(seats, 6);
    served(d, 6, NULL);
    fst_raise(seats, 6);
    served(d, 6, NULL);

    row = "a blank card";
    fst_raise(seats, 0);
    expect(dispatch(&nothing, 255) == FST_ERR_STATE, "not refused");
    served(d, 0, "at");

    row = "refused";
    fst_clear_seats(seats);
    seated(d, 2);
    fst_start(d->bytes, d->len, NULL, NULL, d->counts, d->len, &reading);
    before = *seats;
    refused(fst_raise(seats, 8), &before);
    refused(fst_raise(seats, SIZE_MAX), &before);
    refused(fst_raise(seats, 3), &before);
    refused(fst_seat(seats, 8, &reading), &before);
    seats->last = 8;
    before = *seats;
    refused(fst_raise(seats, 2), &before);
    refused(fst_seat(seats, 3, &reading), &before);
    expect(dispatch(d, 255) == FST_ERR_SEAT, "last is 8");
    seats->last = 7;
    seats->waiting[4] = 1;
    fst_raise(seats, 2);
    before = *seats;
    refused(fst_raise(seats, 2), &before);
    refused(fst_seat(seats, 4, &reading), &before);
    expect(dispatch(d, 255) == FST_ERR_SEAT, "a seat waits without a reading, at another's turn");
    expect(dispatch(&nothing, 0) == FST_ERR_SEAT, "the same with no file");
}

/* ---- eight displays */

static void displays(const card *c, unsigned long turns)
{
    static fst_reading alone[FST_SEATS];
    unsigned long waited[FST_SEATS] = { 0 }, longest = 0, keys = 0, ends = 0, refusals = 0, none = 0, n;
    int waits[FST_SEATS] = { 0 };
    uint8_t key[255];
    size_t key_len, i;
    uint64_t its;
    row = "eight displays";
    all_seated(c);
    for (i = 0; i < FST_SEATS; i++)
        fst_start(c->bytes, c->len, NULL, NULL, c->counts, c->len, &alone[i]);
    for (n = 0; n < turns; n++) {
        size_t raised = below(4);
        for (; raised > 0; raised--) {
            /* display 7 is busy, the others ask now and then */
            i = one_in(3) ? 7 : below(FST_SEATS);
            expect(fst_raise(seats, i) == FST_OK, "fst_raise");
            if (!waits[i])
                waited[i] = 0;
            waits[i] = 1;
        }
        int32_t result = dispatch(c, one_in(10) ? 254 : 255), wanted;
        if (result == FST_NONE) {
            none++;
            for (i = 0; i < FST_SEATS; i++)
                expect(!waits[i], "a display waits, and nobody is served");
            continue;
        }
        if (result != FST_OK && result != FST_END) {
            refusals++;
            continue;
        }
        for (i = 0; i < FST_SEATS; i++) {
            if (waits[i] && ++waited[i] > longest)
                longest = waited[i];
        }
        expect(*seat < FST_SEATS && waits[*seat], "a display is served that does not wait");
        i = *seat % FST_SEATS;
        waits[i] = 0;
        wanted = fst_next(c->bytes, c->len, &alone[i], key, sizeof key, &key_len, &its);
        expect(wanted == result, "another result than a reading alone");
        if (result == FST_OK) {
            keys++;
            expect(key_len == *len && its == *value && memcmp(key, key_end - 255, key_len) == 0, "another key than a reading alone");
        } else {
            ends++;
            fst_start(c->bytes, c->len, NULL, NULL, c->counts, c->len, &alone[i]);
            expect(fst_seat(seats, i, &alone[i]) == FST_OK, "fst_seat");
        }
    }
    expect(longest <= FST_SEATS, "a display waited longer than eight dispatches");
    printf("eight displays: %lu keys, %lu ends, %lu refused, %lu with nobody waiting; the longest wait %lu dispatches\n", keys, ends, refusals, none, longest);
}

/* ---- damage */

static void made(const card *c)
{
    uint8_t *bytes = (uint8_t *)seats;
    for (size_t i = 0; i < sizeof *seats; i++)
        bytes[i] = (uint8_t)any();
    for (size_t s = 0; s < FST_SEATS; s++) {
        for (size_t i = 0; i < 256; i++) {
            seats->addrs[s][i] = (uint32_t)below(c->len + 2);
            seats->trans[s][i] = (uint16_t)(one_in(9) ? any() : below(4));
            seats->outs[s][i] = one_in(9) ? any() : below(1000);
        }
        seats->heads[s][0] = one_in(20) ? any() : c->len;
        seats->heads[s][1] = one_in(2) ? FST_UNBOUNDED : below(4);
        seats->heads[s][2] = one_in(20) ? any() : below(257);
        seats->heads[s][3] = below(2);
        seats->heads[s][6] = one_in(20) ? any() : below(258);
        seats->keys[s] = one_in(9) ? any() : below(5);
        seats->taken[s] = one_in(8) ? (uint8_t)any() : 1;
        seats->waiting[s] = one_in(2) ? 0 : (uint8_t)(1 + below(3));
        if (seats->taken[s] == 0 && !one_in(20))
            seats->waiting[s] = 0;
    }
    seats->last = one_in(20) ? (size_t)any() : below(FST_SEATS);
}

static void damage(card *cards, size_t count, unsigned long calls)
{
    static card hurt;
    unsigned long made_states = 0;
    row = "damage";
    for (dispatches = 0; dispatches < calls;) {
        size_t space = one_in(20) ? below(256) : 255 + below(4), changes = one_in(3) ? 0 : 1 + below(4), n;
        hurt = cards[below(count)];
        if (one_in(2)) {
            made_states++;
            made(&hurt);
        } else {
            all_seated(&hurt);
            for (size_t i = 0; i < FST_SEATS; i++)
                fst_raise(seats, below(FST_SEATS));
        }
        if (one_in(40))
            hurt.len = below(hurt.len + 1);
        for (; changes > 0 && hurt.len > 0; changes--)
            hurt.bytes[below(hurt.len)] = one_in(2) ? (uint8_t)any() : (uint8_t)(1u << below(8));
        for (n = 0; n < 12; n++) {
            dispatch(&hurt, space);
            fst_raise(seats, below(FST_SEATS + 1));
        }
    }
    printf("damaged files and made states: fst_dispatch %lu calls, %lu made states, %lu differences\n", dispatches, made_states, differences);
}

int main(int argc, char **argv)
{
    unsigned long calls = argc > 1 ? strtoul(argv[1], NULL, 10) : 0;
    card *cards = calloc((size_t)argc, sizeof *cards);
    size_t count = 0, largest = 0;
    for (int i = 2; i < argc; i++) {
        FILE *in = fopen(argv[i], "rb");
        if (in == NULL) {
            perror(argv[i]);
            return 2;
        }
        cards[count].len = fread(cards[count].bytes, 1, LONGEST, in);
        fclose(in);
        if (cards[count].len < LONGEST && admitted(&cards[count])) {
            largest = cards[count].len > cards[largest].len ? count : largest;
            count++;
        }
    }
    if (calls == 0 || count < 2) {
        fprintf(stderr, "usage: seats CALLS FILE... (the first a: 1, at: 3, e: 4)\n");
        return 2;
    }
    lend();
    rows(&cards[0], &cards[largest]);
    displays(&cards[largest], 20000);
    displays(&cards[0], 20000);
    damage(cards, count, calls);
    free(cards);
    return differences > 0;
}
