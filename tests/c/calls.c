/* Calls every function of include/baxhiso.h and checks the result, and the file and every buffer afterwards.
 *
 * Each row is a call. Every buffer is a block of its own of exactly the length that the call is given, so that valgrind sees
 * a step beyond it. What is not to be written is filled with MARK. Files are made from their nodes' bytes (docs/FORMAT.md).
 * A refusal that a function can give is reached by at least one row, FST_ERR_LARGE by those of large.c. */
#include <stdio.h>
#include <stdlib.h>
#include <string.h>

#include "baxhiso.h"

#define MARK 0xA5
#define MARK16 0xA5A5
#define MARK64 UINT64_C(0xA5A5A5A5A5A5A5A5)

/* fst_meta stands for an array of five numbers: an error here says that the two differ. */
typedef char fst_meta_is_five_numbers[sizeof(fst_meta) == 5 * sizeof(uint64_t) ? 1 : -1];
/* A row is 256 bytes. */
typedef char fst_row_is_256_bytes[sizeof(fst_row) == 256 ? 1 : -1];

static const char *row;
static int calls, differences;

static void expect(int holds, const char *what)
{
    if (!holds) {
        differences++;
        printf("%s: %s differs\n", row, what);
    }
}

static void expect_number(uint64_t got, uint64_t want, const char *what)
{
    if (got != want) {
        differences++;
        printf("%s: %s is %llu, not %llu\n", row, what, (unsigned long long)got, (unsigned long long)want);
    }
}

static void *block(size_t bytes)
{
    void *p = malloc(bytes > 0 ? bytes : 1);
    if (p == NULL) {
        printf("no memory\n");
        exit(2);
    }
    memset(p, MARK, bytes);
    return p;
}

/* ---- files */

typedef struct file {
    uint8_t *bytes;
    size_t len;
} file;

static void put(uint8_t *at, uint64_t number, int size)
{
    for (int i = 0; i < size; i++)
        at[i] = (uint8_t)(number >> (8 * i));
}

/* A file of its nodes: header, nodes, key count, root address and, in version 3, a checksum. */
static file make(uint64_t version, uint64_t type, const uint8_t *nodes, size_t nodes_len,
                 uint64_t keys, uint64_t root, uint32_t checksum)
{
    file f;
    f.len = 16 + nodes_len + 16 + (version == 3 ? 4 : 0);
    f.bytes = block(f.len);
    put(f.bytes, version, 8);
    put(f.bytes + 8, type, 8);
    if (nodes_len > 0)
        memcpy(f.bytes + 16, nodes, nodes_len);
    put(f.bytes + 16 + nodes_len, keys, 8);
    put(f.bytes + 24 + nodes_len, root, 8);
    if (version == 3)
        put(f.bytes + 32 + nodes_len, checksum, 4);
    return f;
}

static file zeros(size_t len)
{
    file f;
    f.len = len;
    f.bytes = block(len);
    memset(f.bytes, 0, len);
    return f;
}

/* A copy to compare with after the call. */
static uint8_t *before(file f)
{
    uint8_t *copy = block(f.len);
    if (f.len > 0)
        memcpy(copy, f.bytes, f.len);
    return copy;
}

static void expect_file(file f, uint8_t *copy)
{
    expect(f.len == 0 || memcmp(f.bytes, copy, f.len) == 0, "the file");
    free(copy);
}

/* ---- one runner for each function */

static void open_row(const char *name, file f, int32_t want, fst_meta meta)
{
    uint8_t *copy = before(f);
    fst_meta *got = block(sizeof *got);
    const fst_meta kept = { MARK64, MARK64, MARK64, MARK64, MARK64 };
    row = name;
    calls++;
    expect_number((uint64_t)fst_open(f.bytes, f.len, got), (uint64_t)want, "fst_open");
    if (want != FST_OK)
        meta = kept;
    expect_number(got->version, meta.version, "version");
    expect_number(got->type, meta.type, "type");
    expect_number(got->keys, meta.keys, "keys");
    expect_number(got->root, meta.root, "root");
    expect_number(got->checksum, meta.checksum, "checksum");
    free(got);
    expect_file(f, copy);
}

static void open_refused(const char *name, file f, int32_t want)
{
    const fst_meta none = { 0, 0, 0, 0, 0 };
    open_row(name, f, want, none);
}

static void get_row(const char *name, file f, const char *key, size_t key_len, int32_t want, uint64_t value)
{
    uint8_t *copy = before(f);
    uint8_t *k = block(key_len);
    uint64_t *got = block(sizeof *got);
    if (key_len > 0)
        memcpy(k, key, key_len);
    row = name;
    calls++;
    expect_number((uint64_t)fst_get(f.bytes, f.len, k, key_len, got), (uint64_t)want, "fst_get");
    expect_number(*got, want == FST_OK ? value : MARK64, "value");
    expect(key_len == 0 || memcmp(k, key, key_len) == 0, "the key");
    free(got);
    free(k);
    expect_file(f, copy);
}

static void get_key_row(const char *name, file f, uint64_t value, size_t space, int32_t want,
                        const char *key, size_t key_len)
{
    uint8_t *copy = before(f);
    uint8_t *buffer = block(space);
    size_t *len = block(sizeof *len);
    row = name;
    calls++;
    expect_number((uint64_t)fst_get_key(f.bytes, f.len, value, buffer, space, len), (uint64_t)want, "fst_get_key");
    if (want != FST_OK)
        key_len = 0;
    expect_number(*len, want == FST_OK ? key_len : MARK64, "key_len");
    for (size_t i = 0; i < space; i++)
        expect(buffer[i] == (i < key_len ? (uint8_t)key[i] : MARK), "a byte of the key buffer");
    free(len);
    free(buffer);
    expect_file(f, copy);
}

/* What the tables are to hold at the address of a node. */
typedef struct entry {
    size_t addr;
    uint16_t depth;
    uint64_t sum;
} entry;

static void admit_row(const char *name, file f, size_t depths_len, size_t sums_len, int32_t want,
                      const entry *nodes, size_t nodes_len)
{
    int wiped = want == FST_OK || want == FST_ERR_NODE || want == FST_ERR_DEEP || want == FST_ERR_SUM;
    uint8_t *copy = before(f);
    uint16_t *depths = block(depths_len * sizeof *depths);
    uint64_t *sums = block(sums_len * sizeof *sums);
    size_t i, n;
    row = name;
    calls++;
    expect_number((uint64_t)fst_admit(f.bytes, f.len, depths, depths_len, sums, sums_len), (uint64_t)want, "fst_admit");
    for (n = 0; n < nodes_len; n++) {
        expect_number(depths[nodes[n].addr], nodes[n].depth, "a node's depth");
        expect_number(sums[nodes[n].addr], nodes[n].sum, "a node's sum");
        depths[nodes[n].addr] = 0;
        sums[nodes[n].addr] = 0;
    }
    for (i = 0; i < depths_len; i++)
        expect(depths[i] == (wiped && i < f.len ? 0 : MARK16), "another entry of depths");
    for (i = 0; i < sums_len; i++)
        expect(sums[i] == (wiped && i < f.len ? 0 : MARK64), "another entry of sums");
    free(sums);
    free(depths);
    expect_file(f, copy);
}

static void admit_refused(const char *name, file f, size_t depths_len, size_t sums_len, int32_t want)
{
    admit_row(name, f, depths_len, sums_len, want, NULL, 0);
}

/* What the table of keys is to hold at the address of a node. */
typedef struct counted {
    size_t addr;
    uint64_t keys;
} counted;

static void count_row(const char *name, file f, size_t depths_len, size_t sums_len, size_t counts_len, int32_t want,
                      const counted *nodes, size_t nodes_len)
{
    int wiped = want == FST_OK || want == FST_ERR_COUNT;
    uint8_t *copy = before(f);
    uint16_t *depths = block(depths_len * sizeof *depths), *depths_want = block(depths_len * sizeof *depths);
    uint64_t *sums = block(sums_len * sizeof *sums), *sums_want = block(sums_len * sizeof *sums);
    uint64_t *counts = block(counts_len * sizeof *counts);
    size_t i, n;
    row = name;
    calls++;
    expect_number((uint64_t)fst_count(f.bytes, f.len, depths, depths_len, sums, sums_len, counts, counts_len), (uint64_t)want, "fst_count");
    for (n = 0; n < nodes_len; n++) {
        expect_number(counts[nodes[n].addr], nodes[n].keys, "a node's keys");
        counts[nodes[n].addr] = 0;
    }
    for (i = 0; i < counts_len; i++)
        expect(counts[i] == (wiped && i < f.len ? 0 : MARK64), "another entry of counts");
    /* the other two are as admission leaves them, but where the third is too short */
    if (want != FST_ERR_SPACE)
        fst_admit(f.bytes, f.len, depths_want, depths_len, sums_want, sums_len);
    expect(depths_len == 0 || memcmp(depths, depths_want, depths_len * sizeof *depths) == 0, "depths");
    expect(sums_len == 0 || memcmp(sums, sums_want, sums_len * sizeof *sums) == 0, "sums");
    free(counts);
    free(sums_want);
    free(sums);
    free(depths_want);
    free(depths);
    expect_file(f, copy);
}

/* The table of keys of a file, and MARK where it is not filled. */
static uint64_t *table(file f)
{
    uint16_t *depths = block(f.len * sizeof *depths);
    uint64_t *sums = block(f.len * sizeof *sums), *counts = block(f.len * sizeof *counts);
    fst_count(f.bytes, f.len, depths, f.len, sums, f.len, counts, f.len);
    free(sums);
    free(depths);
    return counts;
}

static void start_row(const char *name, file f, const fst_bound *lower, const fst_bound *upper, size_t counts_len, int32_t want,
                      uint64_t to_come)
{
    uint8_t *copy = before(f);
    uint64_t *counts = table(f), *lent = block(counts_len * sizeof *lent);
    fst_reading *reading = block(sizeof *reading), *kept = block(sizeof *kept);
    size_t i;
    for (i = 0; i < counts_len; i++)
        lent[i] = i < f.len ? counts[i] : 0;
    row = name;
    calls++;
    expect_number((uint64_t)fst_start(f.bytes, f.len, lower, upper, lent, counts_len, reading), (uint64_t)want, "fst_start");
    if (want == FST_OK)
        expect_number(fst_to_come(reading), to_come, "the number of keys to come");
    else
        expect(memcmp(reading, kept, sizeof *reading) == 0, "the reading");
    for (i = 0; i < counts_len; i++)
        expect(lent[i] == (i < f.len ? counts[i] : 0), "an entry of counts");
    free(kept);
    free(reading);
    free(lent);
    free(counts);
    expect_file(f, copy);
}

/* One call of next on a reading, which hands out a key, or does not and leaves everything as it is. */
static void next_row(const char *name, file f, fst_reading *reading, size_t space, int32_t want, const char *key, size_t key_len,
                     uint64_t value)
{
    uint8_t *copy = before(f), *buffer = block(space);
    size_t *len = block(sizeof *len);
    uint64_t *got = block(sizeof *got);
    fst_reading was = *reading;
    row = name;
    calls++;
    expect_number((uint64_t)fst_next(f.bytes, f.len, reading, buffer, space, len, got), (uint64_t)want, "fst_next");
    if (want != FST_OK)
        key_len = 0;
    expect_number(*len, want == FST_OK ? key_len : MARK64, "key_len");
    expect_number(*got, want == FST_OK ? value : MARK64, "value");
    expect_number(fst_to_come(reading), fst_to_come(&was) - (want == FST_OK), "the number of keys to come");
    expect(want == FST_OK || want == FST_END || memcmp(reading, &was, sizeof was) == 0, "the reading");
    for (size_t i = 0; i < space; i++)
        expect(buffer[i] == (i < key_len ? (uint8_t)key[i] : MARK), "a byte of the key buffer");
    free(got);
    free(len);
    free(buffer);
    expect_file(f, copy);
}

/* ---- a range */

typedef struct pair {
    const char *key;
    size_t len;
    uint64_t value;
} pair;

/* A pattern: each byte of the text is a position, ? any byte. NULL is no pattern: a range. */
typedef struct pattern {
    const char *text;
    size_t len;
    int rest;
} pattern;

/* Rows and values are blocks of exactly `room` elements, of which the call is told `most`; positions of exactly their number. */
static void page_row(const char *name, file f, const pattern *p, const fst_bound *lower, const fst_bound *upper, size_t most, size_t room, int32_t want,
                     const pair *pairs, size_t pairs_len)
{
    uint16_t *positions = block(p == NULL ? 0 : p->len * sizeof *positions);
    uint8_t *copy = before(f);
    fst_row *rows = block(room * sizeof *rows);
    uint64_t *values = block(room * sizeof *values);
    size_t *count = block(sizeof *count), i, j;
    row = name;
    calls++;
    if (p == NULL) {
        expect_number((uint64_t)fst_range(f.bytes, f.len, lower, upper, most, rows, values, count), (uint64_t)want, "fst_range");
    } else {
        for (i = 0; i < p->len; i++)
            positions[i] = p->text[i] == '?' ? (uint16_t)(FST_ANY_BYTE + i) : (uint8_t)p->text[i];
        expect_number((uint64_t)fst_find(f.bytes, f.len, positions, p->len, p->rest, lower, upper, most, rows, values, count), (uint64_t)want, "fst_find");
        for (i = 0; i < p->len; i++)
            expect_number(positions[i], p->text[i] == '?' ? FST_ANY_BYTE + i : (uint8_t)p->text[i], "a position");
    }
    expect_number(*count, pairs_len, "count");
    for (i = 0; i < room; i++) {
        size_t len = i < pairs_len ? pairs[i].len : 0;
        expect_number(rows[i].len, i < pairs_len ? len : MARK, "a row's length");
        for (j = 0; j < 255; j++)
            expect(rows[i].key[j] == (j < len ? (uint8_t)pairs[i].key[j] : MARK), "a byte of a row");
        expect_number(values[i], i < pairs_len ? pairs[i].value : MARK64, "a value");
    }
    free(count);
    free(values);
    free(rows);
    free(positions);
    expect_file(f, copy);
}

static void range_row(const char *name, file f, const fst_bound *lower, const fst_bound *upper, size_t most, size_t room, int32_t want,
                      const pair *pairs, size_t pairs_len)
{
    page_row(name, f, NULL, lower, upper, most, room, want, pairs, pairs_len);
}

static void range_rows(file d, file nothing, file one, file unsound, file below, file heavy, file deepest, const char *as)
{
    static const uint8_t a[] = { 'a' }, at[] = { 'a', 't' }, e[] = { 'e' };
    static const pair all[] = { { "a", 1, 1 }, { "at", 2, 3 }, { "e", 1, 4 } };
    const pair seven = { "", 0, 7 }, longest_key = { as, 255, 0 };
    uint8_t wide[256];
    const fst_bound from_at = { FST_INCLUDED, at, 2 }, after_a = { FST_EXCLUDED, a, 1 }, below_e = { FST_EXCLUDED, e, 1 }, after_none = { FST_EXCLUDED, NULL, 0 };
    const fst_bound to_at = { FST_INCLUDED, at, 2 }, open = { 77, wide, 256 }, too_long = { FST_INCLUDED, wide, 256 }, longest = { FST_INCLUDED, wide, 255 };

    memset(wide, 'b', sizeof wide);
    range_row("range D", d, NULL, NULL, 20, 20, FST_END, all, 3);
    range_row("range D, 3", d, NULL, NULL, 3, 3, FST_MORE, all, 3);
    range_row("range D, 2", d, NULL, NULL, 2, 3, FST_MORE, all, 2);
    range_row("range D, 1", d, NULL, NULL, 1, 1, FST_MORE, all, 1);
    range_row("range D, none asked for", d, NULL, NULL, 0, 2, FST_MORE, NULL, 0);
    range_row("range D after a, 1", d, &after_a, NULL, 1, 1, FST_MORE, all + 1, 1);
    range_row("range D after a below e", d, &after_a, &below_e, 2, 2, FST_END, all + 1, 1);
    range_row("range D from at", d, &from_at, NULL, 20, 20, FST_END, all + 1, 2);
    range_row("range D to at", d, NULL, &to_at, 20, 20, FST_END, all, 2);
    range_row("range D, bounds that cross", d, &below_e, &from_at, 20, 20, FST_END, NULL, 0);
    range_row("range D, another number for a kind", d, &open, &open, 20, 20, FST_END, all, 3);
    range_row("range D from 255 bytes", d, &longest, NULL, 20, 20, FST_END, all + 2, 1);
    range_row("range D, lower bound of 256 bytes", d, &too_long, NULL, 20, 20, FST_ERR_BOUND, NULL, 0);
    range_row("range D, upper bound of 256 bytes", d, NULL, &too_long, 20, 20, FST_ERR_BOUND, NULL, 0);
    range_row("range D, more rows than there are addresses", d, NULL, NULL, SIZE_MAX / 256 + 1, 1, FST_ERR_SPACE, NULL, 0);
    range_row("range D, 2^64 - 1 rows", d, NULL, NULL, SIZE_MAX, 1, FST_ERR_SPACE, NULL, 0);
    range_row("range no bytes", nothing, NULL, NULL, 2, 2, FST_END, NULL, 0);
    range_row("range version 1, the empty key", one, NULL, NULL, 2, 2, FST_END, &seven, 1);
    range_row("range version 1, after the empty key", one, &after_none, NULL, 2, 2, FST_END, NULL, 0);
    range_row("range 255 times a", deepest, NULL, NULL, 2, 2, FST_END, &longest_key, 1);
    range_row("range C1 at 16", unsound, NULL, NULL, 2, 2, FST_ERR_NODE, NULL, 0);
    range_row("range C1 below", below, NULL, NULL, 2, 2, FST_ERR_NODE, NULL, 0);
    range_row("range 2^64 - 1, then 1", heavy, NULL, NULL, 2, 2, FST_ERR_SUM, NULL, 0);

    /* an e that leads to a node that is not sound, behind a and at: what was found stands beside the refusal */
    row = "range D, damaged behind two keys";
    {
        static const uint8_t nodes[] = { 0xC1, 0x00, 0x02, 0x00, 0x74, 0x11, 0x41, 0x04, 0x01, 0x07, 0x01, 0x65, 0x61, 0x11, 0x02 };
        file f = make(3, 0, nodes, sizeof nodes, 3, 30, 0);
        range_row("range D, damaged behind two keys", f, NULL, NULL, 5, 5, FST_ERR_NODE, all, 2);
        free(f.bytes);
    }
}

/* ---- a page by pattern */

static void find_rows(file d, file nothing, file one, file unsound, file below, file heavy, file deepest, const char *as)
{
    static const uint8_t a[] = { 'a' }, at[] = { 'a', 't' }, e[] = { 'e' };
    static const pair all[] = { { "a", 1, 1 }, { "at", 2, 3 }, { "e", 1, 4 } }, a_and_e[] = { { "a", 1, 1 }, { "e", 1, 4 } };
    static const pair three[] = { { "", 0, 5 }, { "a", 1, 1 }, { "ab", 2, 2 } };
    static const pattern any = { "?", 1, 0 }, a_any = { "a?", 2, 0 }, only_a = { "a", 1, 0 }, only_e = { "e", 1, 0 }, no_position = { "", 0, 0 };
    static const pattern any_rest = { "", 0, 1 }, a_rest = { "a", 1, 7 }, only_b = { "b", 1, 0 };
    static char any_bytes[256];
    const pattern longest_pattern = { any_bytes, 255, 0 }, longest_rest = { any_bytes, 255, 1 }, too_many = { any_bytes, 256, 0 };
    const pair seven = { "", 0, 7 }, longest_key = { as, 255, 0 };
    uint8_t wide[256];
    const fst_bound from_at = { FST_INCLUDED, at, 2 }, after_a = { FST_EXCLUDED, a, 1 }, below_e = { FST_EXCLUDED, e, 1 }, to_a = { FST_INCLUDED, a, 1 };
    const fst_bound no_bytes = { FST_EXCLUDED, NULL, 0 }, too_long = { FST_INCLUDED, wide, 256 };

    memset(wide, 'b', sizeof wide);
    memset(any_bytes, '?', sizeof any_bytes);
    page_row("find ? in D", d, &any, NULL, NULL, 20, 20, FST_END, a_and_e, 2);
    page_row("find ? in D, 2", d, &any, NULL, NULL, 2, 2, FST_MORE, a_and_e, 2);
    page_row("find ? in D, 1", d, &any, NULL, NULL, 1, 2, FST_MORE, a_and_e, 1);
    page_row("find ? in D, the next page", d, &any, &after_a, NULL, 1, 1, FST_MORE, a_and_e + 1, 1);
    page_row("find ? in D, none asked for", d, &any, NULL, NULL, 0, 2, FST_MORE, NULL, 0);
    page_row("find a? in D", d, &a_any, NULL, NULL, 20, 20, FST_END, all + 1, 1);
    page_row("find a in D", d, &only_a, NULL, NULL, 20, 20, FST_END, all, 1);
    page_row("find e in D", d, &only_e, NULL, NULL, 20, 20, FST_END, all + 2, 1);
    page_row("find b in D", d, &only_b, NULL, NULL, 20, 20, FST_END, NULL, 0);
    page_row("find no position in D", d, &no_position, NULL, NULL, 20, 20, FST_END, NULL, 0);
    page_row("find any rest in D", d, &any_rest, NULL, NULL, 20, 20, FST_END, all, 3);
    page_row("find a and any rest in D", d, &a_rest, NULL, NULL, 20, 20, FST_END, all, 2);
    page_row("find a? in D from at below e", d, &a_any, &from_at, &below_e, 20, 20, FST_END, all + 1, 1);
    page_row("find e in D to a", d, &only_e, NULL, &to_a, 20, 20, FST_END, NULL, 0);
    page_row("find 255 positions in D", d, &longest_pattern, NULL, NULL, 20, 20, FST_END, NULL, 0);
    page_row("find 256 positions in D", d, &too_many, NULL, NULL, 20, 20, FST_ERR_PATTERN, NULL, 0);
    page_row("find 256 positions in D, too long a bound, no room", d, &too_many, &too_long, NULL, SIZE_MAX, 1, FST_ERR_PATTERN, NULL, 0);
    page_row("find ? in D, lower bound of 256 bytes, no room", d, &any, &too_long, NULL, SIZE_MAX, 1, FST_ERR_BOUND, NULL, 0);
    page_row("find ? in D, upper bound of 256 bytes", d, &any, NULL, &too_long, 20, 20, FST_ERR_BOUND, NULL, 0);
    page_row("find ? in D, 2^64 - 1 rows", d, &any, NULL, NULL, SIZE_MAX, 1, FST_ERR_SPACE, NULL, 0);
    page_row("find any rest in no bytes", nothing, &any_rest, NULL, NULL, 2, 2, FST_END, NULL, 0);
    page_row("find no position in version 1, the empty key", one, &no_position, NULL, NULL, 2, 2, FST_END, &seven, 1);
    page_row("find 255 any bytes", deepest, &longest_pattern, NULL, NULL, 2, 2, FST_END, &longest_key, 1);
    page_row("find 255 any bytes and any rest", deepest, &longest_rest, NULL, NULL, 2, 2, FST_END, &longest_key, 1);
    page_row("find any rest, C1 at 16", unsound, &any_rest, NULL, NULL, 2, 2, FST_ERR_NODE, NULL, 0);
    page_row("find a, C1 below", below, &only_a, NULL, NULL, 2, 2, FST_ERR_NODE, NULL, 0);
    page_row("find any rest, 2^64 - 1, then 1", heavy, &any_rest, NULL, NULL, 2, 2, FST_ERR_SUM, NULL, 0);

    /* "" 5, a 1, ab 2: a pending empty key that does not fit is dropped */
    {
        static const uint8_t nodes[] = { 0x00, 0x01, 0x00, 0x62, 0x11, 0x41, 0x05, 0x01, 0x01, 0x61, 0x11, 0x41 };
        file f = make(2, 0, nodes, sizeof nodes, 3, 27, 0);
        page_row("find any rest, the empty key first", f, &any_rest, NULL, NULL, 5, 5, FST_END, three, 3);
        page_row("find a, the empty key dropped", f, &only_a, NULL, NULL, 5, 5, FST_END, three + 1, 1);
        page_row("find a, the empty key dropped, 1", f, &only_a, NULL, NULL, 1, 1, FST_MORE, three + 1, 1);
        page_row("find no position, the empty key alone", f, &no_position, NULL, NULL, 5, 5, FST_END, three, 1);
        page_row("find a, the upper bound excludes the empty key", f, &only_a, NULL, &no_bytes, 5, 5, FST_END, NULL, 0);
        page_row("find a, both bounds exclude the empty key", f, &only_a, &no_bytes, &no_bytes, 5, 5, FST_END, NULL, 0);
        free(f.bytes);
    }
    /* a final output makes the sum pass: judged only for a key that fits */
    {
        static const uint8_t nodes[] = { 0x01, 0x01, 0x00, 0x40, 0xFF, 0xFF, 0xFF, 0xFF, 0xFF, 0xFF, 0xFF, 0xFF, 0x01, 0x18, 0x85 };
        file f = make(3, 0, nodes, sizeof nodes, 1, 30, 0);
        page_row("find a, the final output makes the sum pass", f, &only_a, NULL, NULL, 2, 2, FST_ERR_SUM, NULL, 0);
        page_row("find b, the final output of a makes the sum pass", f, &only_b, NULL, NULL, 2, 2, FST_END, NULL, 0);
        free(f.bytes);
    }
    /* damaged behind two keys: what fits and was found stands beside the refusal; a level that cannot fit is looked at, its targets are not */
    {
        static const uint8_t nodes[] = { 0xC1, 0x00, 0x02, 0x00, 0x74, 0x11, 0x41, 0x04, 0x01, 0x07, 0x01, 0x65, 0x61, 0x11, 0x02 };
        file f = make(3, 0, nodes, sizeof nodes, 3, 30, 0);
        page_row("find any rest in D, damaged behind two keys", f, &any_rest, NULL, NULL, 5, 5, FST_ERR_NODE, all, 2);
        page_row("find ? in D, damaged behind two keys", f, &any, NULL, NULL, 5, 5, FST_ERR_NODE, all, 1);
        free(f.bytes);
    }
}

/* ---- readings */

static void reading_rows(file d, file nothing, file one, file unsound, file below, file heavy)
{
    static const uint8_t a[] = { 'a' }, at[] = { 'a', 't' }, e[] = { 'e' };
    uint8_t wide[256];
    const fst_bound from_at = { FST_INCLUDED, at, 2 }, after_a = { FST_EXCLUDED, a, 1 }, below_e = { FST_EXCLUDED, e, 1 };
    const fst_bound to_e = { FST_INCLUDED, e, 1 }, open = { 77, wide, 256 }, negative = { -1, wide, 256 };
    fst_bound too_long = { FST_INCLUDED, wide, 256 }, longest = { FST_EXCLUDED, wide, 255 };
    fst_bound within = { FST_INCLUDED, d.bytes + 27, 1 };
    uint64_t *counts = table(d), *no_counts = table(one);
    fst_reading *reading = block(sizeof *reading), *copy = block(sizeof *copy);
    file cut = d;

    memset(wide, 'b', sizeof wide);
    start_row("start D", d, NULL, NULL, 50, FST_OK, 3);
    start_row("start D, longer table", d, NULL, NULL, 53, FST_OK, 3);
    start_row("start D from at", d, &from_at, NULL, 50, FST_OK, 2);
    start_row("start D after a, below e", d, &after_a, &below_e, 50, FST_OK, 1);
    start_row("start D from at to e", d, &from_at, &to_e, 50, FST_OK, 2);
    start_row("start D, bounds that cross", d, &below_e, &from_at, 50, FST_OK, 0);
    start_row("start D, another number for a kind", d, &open, &negative, 50, FST_OK, 3);
    start_row("start D after 255 bytes", d, &longest, NULL, 50, FST_OK, 1);
    start_row("start D, a bound within the file", d, &within, NULL, 50, FST_OK, 3);
    start_row("start D, lower bound of 256 bytes", d, &too_long, NULL, 50, FST_ERR_BOUND, 0);
    start_row("start D, upper bound of 256 bytes, short table", d, NULL, &too_long, 0, FST_ERR_BOUND, 0);
    start_row("start D, table one short", d, NULL, NULL, 49, FST_ERR_SPACE, 0);
    start_row("start no bytes", nothing, NULL, NULL, 0, FST_OK, 0);
    start_row("start version 1", one, NULL, NULL, 36, FST_OK, 1);
    start_row("start C1 at 16", unsound, NULL, NULL, 37, FST_ERR_NODE, 0);
    start_row("start C1 below, from a", below, &(fst_bound){ FST_INCLUDED, a, 1 }, NULL, 42, FST_ERR_NODE, 0);
    start_row("start 2^64 - 1, then 1, from ab", heavy, &(fst_bound){ FST_INCLUDED, (const uint8_t *)"ab", 2 }, NULL, 53, FST_ERR_SUM, 0);
    /* a table that says no key for the root: fewer within than before */
    row = "start D with another table";
    calls++;
    expect_number((uint64_t)fst_start(d.bytes, d.len, &from_at, NULL, (const uint64_t[50]){ 0 }, 50, reading), FST_ERR_COUNT, "fst_start");

    row = "read D";
    fst_start(d.bytes, d.len, NULL, NULL, counts, 50, reading);
    next_row("read D, 254 bytes of space", d, reading, 254, FST_ERR_SPACE, NULL, 0, 0);
    next_row("read D, a", d, reading, 255, FST_OK, "a", 1, 1);
    *copy = *reading;
    next_row("read D, at", d, reading, 300, FST_OK, "at", 2, 3);
    cut.len = 49;
    next_row("read D, cut", cut, reading, 255, FST_ERR_ROOT, NULL, 0, 0);
    next_row("read D, of another length", one, reading, 255, FST_ERR_STATE, NULL, 0, 0);
    next_row("read D, no space", d, reading, 0, FST_ERR_SPACE, NULL, 0, 0);
    next_row("read D, e", d, reading, 255, FST_OK, "e", 1, 4);
    next_row("read D, end", d, reading, 255, FST_END, NULL, 0, 0);
    next_row("read D, end again", d, reading, 255, FST_END, NULL, 0, 0);
    /* a mark is a copy that the caller keeps: back to it, twice, with total and keys to come as they were there */
    *reading = *copy;
    expect_number(reading->head[5], 1, "transitions followed, back after a");
    expect_number(fst_to_come(reading), 2, "keys to come, back after a");
    next_row("back after a, at", d, reading, 255, FST_OK, "at", 2, 3);
    expect_number(reading->head[5], 2, "transitions followed, counted on from there");
    next_row("back after a, e", d, reading, 255, FST_OK, "e", 1, 4);
    next_row("back after a, end", d, reading, 255, FST_END, NULL, 0, 0);
    *reading = *copy;
    next_row("back after a again, at", d, reading, 255, FST_OK, "at", 2, 3);
    next_row("a copy goes on from where it was made", d, copy, 255, FST_OK, "at", 2, 3);
    copy->head[6] = 257;
    next_row("257 levels", d, copy, 255, FST_ERR_STATE, NULL, 0, 0);
    copy->head[6] = 2;
    copy->keys[0] = 0;
    next_row("a key where none is to come", d, copy, 255, FST_ERR_STATE, NULL, 0, 0);
    fst_start(d.bytes, d.len, &after_a, &below_e, counts, 50, reading);
    next_row("read D after a", d, reading, 255, FST_OK, "at", 2, 3);
    next_row("read D below e", d, reading, 255, FST_END, NULL, 0, 0);
    fst_start(one.bytes, one.len, NULL, NULL, no_counts, 36, reading);
    next_row("read version 1, the empty key", one, reading, 255, FST_OK, "", 0, 7);
    next_row("read version 1, end", one, reading, 255, FST_END, NULL, 0, 0);
    memset(reading, 0, sizeof *reading);
    reading->head[0] = below.len;
    reading->head[1] = FST_UNBOUNDED;
    reading->head[6] = 1;
    reading->addrs[0] = 21;
    next_row("C1 below", below, reading, 255, FST_ERR_NODE, NULL, 0, 0);
    reading->head[0] = heavy.len;
    reading->addrs[0] = 32;
    reading->keys[0] = 1;
    next_row("2^64 - 1, then 1", heavy, reading, 255, FST_ERR_SUM, NULL, 0, 0);
    free(copy);
    free(reading);
    free(no_counts);
    free(counts);
}

/* ---- NULL with length 0 */

static void null_rows(file d, file seven)
{
    fst_meta meta = { 1, 2, 3, 4, 5 };
    uint8_t key[255];
    uint64_t value = 6, sums[64];
    uint16_t depths[64];
    size_t len = 7;
    fst_reading reading;

    row = "NULL";
    calls += 20;
    /* a blank card may be NULL */
    expect_number((uint64_t)fst_open(NULL, 0, &meta), FST_OK, "fst_open, file");
    expect(meta.version == 0 && meta.type == 0 && meta.keys == 0 && meta.root == 0 && meta.checksum == FST_NO_CHECKSUM, "meta");
    expect_number((uint64_t)fst_get(NULL, 0, NULL, 0, &value), (uint64_t)FST_NONE, "fst_get, file and key");
    expect_number((uint64_t)fst_get_key(NULL, 0, 0, key, 254, &len), FST_ERR_SPACE, "fst_get_key, file, 254 bytes");
    expect_number((uint64_t)fst_get_key(NULL, 0, 0, key, 255, &len), (uint64_t)FST_NONE, "fst_get_key, file");
    expect_number((uint64_t)fst_get(d.bytes, d.len, NULL, 0, &value), (uint64_t)FST_NONE, "fst_get, key");
    expect_number(value, 6, "value");
    expect_number((uint64_t)fst_get(seven.bytes, seven.len, NULL, 0, &value), FST_OK, "fst_get, the empty key");
    expect_number(value, 7, "value");
    expect_number((uint64_t)fst_get_key(NULL, 0, 3, NULL, 0, &len), FST_ERR_SPACE, "fst_get_key, file and key");
    expect_number((uint64_t)fst_get_key(d.bytes, d.len, 3, NULL, 0, &len), FST_ERR_SPACE, "fst_get_key, key");
    expect_number(len, 7, "key_len");
    expect_number((uint64_t)fst_admit(NULL, 0, NULL, 0, NULL, 0), FST_OK, "fst_admit, all");
    memset(depths, MARK, sizeof depths);
    memset(sums, MARK, sizeof sums);
    expect_number((uint64_t)fst_admit(NULL, 0, depths, 64, sums, 64), FST_OK, "fst_admit, file");
    expect_number((uint64_t)fst_admit(d.bytes, d.len, NULL, 0, sums, 64), FST_ERR_SPACE, "fst_admit, depths");
    expect_number((uint64_t)fst_admit(d.bytes, d.len, depths, 64, NULL, 0), FST_ERR_SPACE, "fst_admit, sums");
    expect_number((uint64_t)fst_count(NULL, 0, NULL, 0, NULL, 0, NULL, 0), FST_OK, "fst_count, all");
    expect_number((uint64_t)fst_count(d.bytes, d.len, depths, 64, sums, 64, NULL, 0), FST_ERR_SPACE, "fst_count, counts");
    for (int i = 0; i < 64; i++)
        expect(depths[i] == MARK16 && sums[i] == MARK64, "an entry of a table");
    expect_number((uint64_t)fst_start(NULL, 0, NULL, NULL, NULL, 0, &reading), FST_OK, "fst_start, file, bounds and table");
    expect_number((uint64_t)fst_next(NULL, 0, &reading, NULL, 0, &len, &value), FST_ERR_SPACE, "fst_next, file and key");
    expect_number((uint64_t)fst_next(NULL, 0, &reading, key, 255, &len, &value), (uint64_t)FST_END, "fst_next, file");
    expect(len == 7 && value == 7, "key_len or value");
    expect_number((uint64_t)fst_range(NULL, 0, NULL, NULL, 0, NULL, NULL, &len), (uint64_t)FST_MORE, "fst_range, file, bounds, rows and values");
    expect_number(len, 0, "count");
    expect_number((uint64_t)fst_range_rows(d.bytes, d.len, 2, NULL, 0, 2, NULL, 0, 1, NULL, 0, NULL, 0, &len), FST_ERR_SPACE, "fst_range_rows, rows and values");
    expect_number((uint64_t)fst_find(NULL, 0, NULL, 0, 1, NULL, NULL, 0, NULL, NULL, &len), (uint64_t)FST_MORE, "fst_find, file, positions, bounds, rows and values");
    expect_number((uint64_t)fst_find_rows(d.bytes, d.len, NULL, 0, 1, 2, NULL, 0, 2, NULL, 0, 1, NULL, 0, NULL, 0, &len), FST_ERR_SPACE, "fst_find_rows, positions, rows and values");
}

/* ---- a file at an odd address, and a key within the file */

static void address_rows(file d)
{
    file odd;
    uint8_t *room = block(d.len + 1);
    uint64_t value = 0;

    odd.bytes = room + 1;
    odd.len = d.len;
    memcpy(odd.bytes, d.bytes, d.len);
    get_row("file at the next address", odd, "at", 2, FST_OK, 3);
    get_key_row("file at the next address, by value", odd, 3, 255, FST_OK, "at", 2);

    row = "key within the file";
    calls++;
    expect_number((uint64_t)fst_get(d.bytes, d.len, d.bytes + 27, 1, &value), FST_OK, "fst_get");
    expect_number(value, 1, "value");
    free(room);
}

/* ---- the numbers of the refusals and their names, as docs/FORMAT.md has them */

static void name_rows(void)
{
    static const struct {
        int result;
        const char *name;
    } names[] = {
        { FST_MORE, "MORE" }, { FST_END, "END" }, { FST_NONE, "NONE" }, { FST_OK, "OK" },
        { FST_ERR_SHORT, "SHORT" }, { FST_ERR_VERSION, "VERSION" }, { FST_ERR_ROOT, "ROOT" }, { FST_ERR_LARGE, "LARGE" },
        { FST_ERR_NODE, "NODE" }, { FST_ERR_DEEP, "DEEP" }, { FST_ERR_SUM, "SUM" }, { FST_ERR_SPACE, "SPACE" },
        { FST_ERR_BOUND, "BOUND" }, { FST_ERR_RECORD, "RECORD" }, { FST_ERR_STATE, "STATE" }, { FST_ERR_PATTERN, "PATTERN" },
        { FST_ERR_LIST, "LIST" }, { FST_ERR_CARDS, "CARDS" }, { FST_ERR_EDITION, "EDITION" }, { FST_ERR_CARRY, "CARRY" },
        { FST_ERR_NAME, "NAME" }, { FST_ERR_FULL, "FULL" }, { FST_ERR_COUNT, "COUNT" }, { FST_ERR_SEAT, "SEAT" },
    };
    row = "names";
    for (int i = 0; i < (int)(sizeof names / sizeof *names); i++) {
        expect_number((uint64_t)names[i].result, (uint64_t)(i - 3), names[i].name);
        expect(strcmp(fst_result_name(names[i].result), names[i].name) == 0, names[i].name);
    }
    expect(strcmp(fst_result_name(21), "UNKNOWN") == 0, "21");
    expect(strcmp(fst_result_name(-100), "UNKNOWN") == 0, "-100");
    expect(strcmp(fst_result_name(INT32_MAX), "UNKNOWN") == 0, "the largest number");
}

int main(void)
{
    /* a: 1, at: 3, e: 4 */
    static const uint8_t d_nodes[] = { 0x00, 0x02, 0x00, 0x74, 0x11, 0x41, 0x04, 0x01, 0x00, 0x01, 0x65, 0x61, 0x11, 0x02 };
    static const entry d_entries[] = { { 21, 2, 2 }, { 29, 3, 4 } };
    /* the empty key, with a final output of 7 */
    static const uint8_t seven_nodes[] = { 0x07, 0x01, 0x00, 0x40 };
    static const entry seven_entries[] = { { 19, 1, 7 } };
    /* its target would be byte 15, in the header */
    static const uint8_t unsound_nodes[] = { 0xC1 };
    /* a node that is sound behind a transition to one that is not */
    static const uint8_t below_nodes[] = { 0xC1, 0x02, 0x01, 0x11, 0x61, 0x80 };
    /* a with 2^64 - 1, then b with 1 */
    static const uint8_t sum_nodes[] = { 0x01, 0x00, 0x11, 0x62, 0x80,
        0xFF, 0xFF, 0xFF, 0xFF, 0xFF, 0xFF, 0xFF, 0xFF, 0x01, 0x18, 0x61, 0x80 };
    /* a with 2^64 - 1, then a final output of 1 */
    static const uint8_t final_nodes[] = { 0x01, 0x01, 0x00, 0x40,
        0xFF, 0xFF, 0xFF, 0xFF, 0xFF, 0xFF, 0xFF, 0xFF, 0x01, 0x18, 0x61, 0x80 };
    /* 256 times a, each with 0: one node to address 0, and one byte for each node to the one before it */
    uint8_t deep_nodes[3 + 255] = { 0x00, 0x10, 0x85 };
    entry deep_entries[255];
    char as[257];
    /* a and b to address 0, then 63 nodes with a and b to the one before: 2^64 keys */
    uint8_t many_nodes[6 + 63 * 6] = { 0x00, 0x00, 0x62, 0x61, 0x10, 0x02 };

    const fst_meta d_meta = { 3, 0, 3, 29, 0 };
    const fst_meta typed_meta = { 3, 6, 3, 29, 4294967295u };
    const fst_meta one_meta = { 1, 9, 1, 19, FST_NO_CHECKSUM };
    const fst_meta two_meta = { 2, 9, 1, 19, FST_NO_CHECKSUM };
    const fst_meta empty_meta = { 3, 0, 0, 0, 0 };
    file d = make(3, 0, d_nodes, sizeof d_nodes, 3, 29, 0);
    file typed = make(3, 6, d_nodes, sizeof d_nodes, 3, 29, 4294967295u);
    file one = make(1, 9, seven_nodes, sizeof seven_nodes, 1, 19, 0);
    file two = make(2, 9, seven_nodes, sizeof seven_nodes, 1, 19, 0);
    file empty = make(3, 0, NULL, 0, 0, 0, 0);
    file brief = zeros(31);
    file longer = zeros(35);
    file nothing = zeros(0);
    file old = make(2, 0, NULL, 0, 0, 0, 0);
    file older = make(1, 9, NULL, 0, 1, 0, 0);
    file misrooted = make(1, 0, NULL, 0, 0, 16, 0);
    file cut = make(3, 0, NULL, 0, 0, 0, 0);
    file node_of_1 = make(2, 0, (const uint8_t *)"\xC5", 1, 1, 16, 0);
    file no_key = make(2, 0, (const uint8_t *)"\0\0\0", 3, 0, 18, 0);
    file one_key = make(2, 0, (const uint8_t *)"\0\x10\x85", 3, 1, 18, 0);
    const entry one_key_entries[] = { { 18, 2, 0 } };
    const entry no_key_entries[] = { { 18, 1, 0 } };
    file unversioned = zeros(36);
    file rootless = make(3, 0, (const uint8_t *)"\0\0\0", 3, 0, 17, 0);
    file unsound = make(3, 0, unsound_nodes, sizeof unsound_nodes, 1, 16, 0);
    file below = make(3, 0, below_nodes, sizeof below_nodes, 1, 21, 0);
    file heavy = make(3, 0, sum_nodes, sizeof sum_nodes, 1, 32, 0);
    file heavier = make(3, 0, final_nodes, sizeof final_nodes, 1, 31, 0);
    file deep, deepest, many;
    size_t i;

    for (i = 1; i < 64; i++) {
        static const uint8_t both[] = { 0x01, 0x01, 0x62, 0x61, 0x10, 0x02 };
        memcpy(many_nodes + 6 * i, both, 6);
    }
    many = make(3, 0, many_nodes, sizeof many_nodes, 0, 16 + sizeof many_nodes - 1, 0);
    memset(deep_nodes + 3, 0xC5, 255);
    memset(as, 'a', sizeof as);
    deep = make(3, 0, deep_nodes, sizeof deep_nodes, 1, 273, 0);
    deepest = make(3, 0, deep_nodes, sizeof deep_nodes - 1, 1, 272, 0);
    for (i = 0; i < 255; i++) {
        const entry at = { 18 + i, (uint16_t)(2 + i), 0 };
        deep_entries[i] = at;
    }

    open_row("D", d, FST_OK, d_meta);
    open_row("D with a type and a checksum", typed, FST_OK, typed_meta);
    open_row("version 1", one, FST_OK, one_meta);
    open_row("version 2", two, FST_OK, two_meta);
    open_row("root 0", empty, FST_OK, empty_meta);
    open_row("no bytes", nothing, FST_OK, (fst_meta){ 0, 0, 0, 0, FST_NO_CHECKSUM });
    open_refused("31 zeros", brief, FST_ERR_SHORT);
    open_refused("35 zeros", longer, FST_ERR_VERSION);
    open_row("version 2, 32 bytes, root 0", old, FST_OK, (fst_meta){ 2, 0, 0, 0, FST_NO_CHECKSUM });
    open_row("version 1, 32 bytes, root 0", older, FST_OK, (fst_meta){ 1, 9, 1, 0, FST_NO_CHECKSUM });
    open_refused("version 1, 32 bytes, root 16", misrooted, FST_ERR_ROOT);
    cut.len = 35;
    open_refused("version 3, 35 bytes", cut, FST_ERR_SHORT);
    open_row("version 2, 33 bytes", node_of_1, FST_OK, (fst_meta){ 2, 0, 1, 16, FST_NO_CHECKSUM });
    open_refused("36 zeros", unversioned, FST_ERR_VERSION);
    open_refused("39 bytes, root 17", rootless, FST_ERR_ROOT);
    open_row("C1 at 16: no node is read", unsound, FST_OK, (fst_meta){ 3, 0, 1, 16, 0 });

    get_row("D, a", d, "a", 1, FST_OK, 1);
    get_row("D, at", d, "at", 2, FST_OK, 3);
    get_row("D, e", d, "e", 1, FST_OK, 4);
    get_row("D, empty key", d, "", 0, FST_NONE, 0);
    get_row("D, ate", d, "ate", 3, FST_NONE, 0);
    get_row("D, b", d, "b", 1, FST_NONE, 0);
    get_row("version 1, empty key", one, "", 0, FST_OK, 7);
    get_row("version 2, empty key", two, "", 0, FST_OK, 7);
    get_row("root 0, empty key", empty, "", 0, FST_OK, 0);
    get_row("root 0, a", empty, "a", 1, FST_NONE, 0);
    get_row("256 times a", deep, as, 256, FST_OK, 0);
    get_row("255 times a of 256", deep, as, 255, FST_NONE, 0);
    get_row("257 times a of 256", deep, as, 257, FST_NONE, 0);
    get_row("31 zeros, a", brief, "a", 1, FST_ERR_SHORT, 0);
    get_row("35 zeros, a", longer, "a", 1, FST_ERR_VERSION, 0);
    get_row("no bytes, empty key", nothing, "", 0, FST_NONE, 0);
    get_row("no bytes, a", nothing, "a", 1, FST_NONE, 0);
    get_row("version 2, 32 bytes, empty key", old, "", 0, FST_OK, 0);
    get_row("version 1, 32 bytes, a", older, "a", 1, FST_NONE, 0);
    get_row("version 2, 33 bytes, empty key", node_of_1, "", 0, FST_ERR_NODE, 0);
    get_row("version 2, 35 bytes, empty key", no_key, "", 0, FST_NONE, 0);
    get_row("version 2, 35 bytes, a", one_key, "a", 1, FST_OK, 0);
    get_row("36 zeros, a", unversioned, "a", 1, FST_ERR_VERSION, 0);
    get_row("39 bytes, root 17, a", rootless, "a", 1, FST_ERR_ROOT, 0);
    get_row("C1 at 16, empty key", unsound, "", 0, FST_ERR_NODE, 0);
    get_row("C1 at 16, a", unsound, "a", 1, FST_ERR_NODE, 0);
    get_row("C1 below, empty key", below, "", 0, FST_NONE, 0);
    get_row("C1 below, a", below, "a", 1, FST_ERR_NODE, 0);
    get_row("2^64 - 1, then 1: a", heavy, "a", 1, FST_NONE, 0);
    get_row("2^64 - 1, then 1: ab", heavy, "ab", 2, FST_ERR_SUM, 0);
    get_row("2^64 - 1, then 1 at the end: a", heavier, "a", 1, FST_ERR_SUM, 0);

    get_key_row("D, 1", d, 1, 255, FST_OK, "a", 1);
    get_key_row("D, 3", d, 3, 255, FST_OK, "at", 2);
    get_key_row("D, 4", d, 4, 300, FST_OK, "e", 1);
    get_key_row("D, 0", d, 0, 255, FST_NONE, NULL, 0);
    get_key_row("D, 2", d, 2, 255, FST_NONE, NULL, 0);
    get_key_row("D, 2^64 - 1", d, UINT64_MAX, 255, FST_NONE, NULL, 0);
    get_key_row("root 0, 0", empty, 0, 255, FST_OK, "", 0);
    get_key_row("final outputs are not counted", one, 7, 255, FST_NONE, NULL, 0);
    get_key_row("255 times a", deepest, 0, 255, FST_OK, as, 255);
    get_key_row("254 bytes of space", d, 3, 254, FST_ERR_SPACE, NULL, 0);
    get_key_row("no space", d, 3, 0, FST_ERR_SPACE, NULL, 0);
    get_key_row("31 zeros before no space", brief, 3, 0, FST_ERR_SHORT, NULL, 0);
    get_key_row("no bytes, no space", nothing, 0, 254, FST_ERR_SPACE, NULL, 0);
    get_key_row("no bytes, 0", nothing, 0, 255, FST_NONE, NULL, 0);
    get_key_row("version 2, 32 bytes, 0", old, 0, 255, FST_OK, "", 0);
    get_key_row("version 2, 35 bytes, 0", one_key, 0, 255, FST_OK, "a", 1);
    get_key_row("36 zeros, 3", unversioned, 3, 255, FST_ERR_VERSION, NULL, 0);
    get_key_row("39 bytes, root 17, 3", rootless, 3, 255, FST_ERR_ROOT, NULL, 0);
    get_key_row("C1 at 16, 0", unsound, 0, 255, FST_ERR_NODE, NULL, 0);
    get_key_row("C1 below, 2", below, 2, 255, FST_ERR_NODE, NULL, 0);
    get_key_row("256 times a, 0", deep, 0, 255, FST_ERR_DEEP, NULL, 0);

    admit_row("admit D", d, 50, 50, FST_OK, d_entries, 2);
    admit_row("admit D, longer tables", d, 53, 57, FST_OK, d_entries, 2);
    admit_row("admit version 1", one, 36, 36, FST_OK, seven_entries, 1);
    admit_row("admit root 0", empty, 36, 40, FST_OK, NULL, 0);
    admit_row("admit 255 times a", deepest, deepest.len, deepest.len + 1, FST_OK, deep_entries, 255);
    admit_refused("admit D, depths one short", d, 49, 50, FST_ERR_SPACE);
    admit_refused("admit D, sums one short", d, 50, 49, FST_ERR_SPACE);
    admit_row("admit no bytes", nothing, 0, 0, FST_OK, NULL, 0);
    admit_row("admit no bytes, longer tables", nothing, 3, 7, FST_OK, NULL, 0);
    admit_row("admit version 2, 32 bytes", old, 32, 33, FST_OK, NULL, 0);
    admit_row("admit version 2, 35 bytes, no key", no_key, 35, 35, FST_OK, no_key_entries, 1);
    admit_row("admit version 2, 35 bytes, a", one_key, 36, 35, FST_OK, one_key_entries, 1);
    admit_refused("admit version 2, 33 bytes", node_of_1, 33, 33, FST_ERR_NODE);
    admit_refused("admit version 1, 32 bytes, one entry short", older, 31, 32, FST_ERR_SPACE);
    admit_refused("admit 31 zeros", brief, 31, 31, FST_ERR_SHORT);
    admit_refused("admit 36 zeros", unversioned, 36, 36, FST_ERR_VERSION);
    admit_refused("admit 39 bytes, root 17", rootless, 39, 39, FST_ERR_ROOT);
    admit_refused("admit C1 at 16", unsound, 40, 37, FST_ERR_NODE);
    admit_refused("admit C1 below", below, 42, 43, FST_ERR_NODE);
    admit_refused("admit 256 times a", deep, 296, 294, FST_ERR_DEEP);
    admit_refused("admit 2^64 - 1, then 1", heavy, 53, 60, FST_ERR_SUM);
    admit_refused("admit 2^64 - 1, then 1 at the end", heavier, 60, 52, FST_ERR_SUM);

    count_row("count D", d, 50, 50, 50, FST_OK, (const counted[]){ { 21, 2 }, { 29, 3 } }, 2);
    count_row("count D, longer tables", d, 51, 52, 53, FST_OK, (const counted[]){ { 21, 2 }, { 29, 3 } }, 2);
    count_row("count version 1", one, 36, 36, 36, FST_OK, (const counted[]){ { 19, 1 } }, 1);
    count_row("count root 0", empty, 36, 36, 40, FST_OK, NULL, 0);
    count_row("count no bytes", nothing, 0, 0, 0, FST_OK, NULL, 0);
    count_row("count no bytes, longer tables", nothing, 3, 4, 5, FST_OK, NULL, 0);
    count_row("count version 2, 35 bytes, no key", no_key, 35, 35, 35, FST_OK, NULL, 0);
    count_row("count D, depths one short", d, 49, 50, 50, FST_ERR_SPACE, NULL, 0);
    count_row("count D, sums one short", d, 50, 49, 50, FST_ERR_SPACE, NULL, 0);
    count_row("count D, counts one short", d, 50, 50, 49, FST_ERR_SPACE, NULL, 0);
    count_row("count 31 zeros, no tables", brief, 0, 0, 0, FST_ERR_SHORT, NULL, 0);
    count_row("count 36 zeros", unversioned, 36, 36, 36, FST_ERR_VERSION, NULL, 0);
    count_row("count 39 bytes, root 17", rootless, 39, 39, 39, FST_ERR_ROOT, NULL, 0);
    count_row("count C1 at 16", unsound, 40, 37, 38, FST_ERR_NODE, NULL, 0);
    count_row("count 256 times a", deep, deep.len, deep.len, deep.len, FST_ERR_DEEP, NULL, 0);
    count_row("count 2^64 - 1, then 1", heavy, 53, 53, 60, FST_ERR_SUM, NULL, 0);
    count_row("count 2^64 keys", many, many.len, many.len, many.len + 1, FST_ERR_COUNT, NULL, 0);
    range_rows(d, nothing, one, unsound, below, heavy, deepest, as);
    find_rows(d, nothing, one, unsound, below, heavy, deepest, as);
    reading_rows(d, nothing, one, unsound, below, heavy);

    name_rows();
    null_rows(d, one);
    address_rows(d);

    free(d.bytes);
    free(typed.bytes);
    free(one.bytes);
    free(two.bytes);
    free(empty.bytes);
    free(brief.bytes);
    free(longer.bytes);
    free(nothing.bytes);
    free(old.bytes);
    free(older.bytes);
    free(misrooted.bytes);
    free(cut.bytes);
    free(node_of_1.bytes);
    free(no_key.bytes);
    free(one_key.bytes);
    free(unversioned.bytes);
    free(rootless.bytes);
    free(unsound.bytes);
    free(below.bytes);
    free(heavy.bytes);
    free(heavier.bytes);
    free(deep.bytes);
    free(deepest.bytes);
    free(many.bytes);
    printf("%d calls, %d differences\n", calls, differences);
    return differences > 0;
}
