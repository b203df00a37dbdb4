/* Calls the functions of include/baxhiso.h that write files or carry a reading to one, and checks the result, and every buffer afterwards.
 *
 * Each buffer is a block of its own of exactly the length that the call is given, so that valgrind sees a step beyond it. What is not to be
 * written is filled with MARK. */
#include <stdio.h>
#include <stdlib.h>
#include <string.h>

#include "baxhiso.h"

#define MARK 0xA5

static const char *row;
static int calls, differences;

static void expect(int holds, const char *what)
{
    if (!holds) {
        differences++;
        printf("%s: %s differs\n", row, what);
    }
}

static void expect_number(uint64_t got, uint64_t want, const char *what)
{
    if (got != want) {
        differences++;
        printf("%s: %s is %llu, not %llu\n", row, what, (unsigned long long)got, (unsigned long long)want);
    }
}

static void *block(size_t bytes)
{
    void *p = malloc(bytes > 0 ? bytes : 1);
    if (p == NULL) {
        printf("no memory\n");
        exit(2);
    }
    memset(p, MARK, bytes > 0 ? bytes : 1);
    return p;
}

/* Whether bytes are all MARK. */
static int untouched(const void *bytes, size_t len)
{
    const uint8_t *b = bytes;
    for (size_t i = 0; i < len; i++)
        if (b[i] != MARK)
            return 0;
    return 1;
}

static void put(uint8_t *at, uint64_t number, int size)
{
    for (int i = 0; i < size; i++)
        at[i] = (uint8_t)(number >> (8 * i));
}

typedef struct file {
    uint8_t *bytes;
    size_t len;
} file;

/* A file of version 1 or 2 of its nodes, with type 7. */
static file make(uint64_t version, const void *nodes, size_t nodes_len, uint64_t keys)
{
    file f;
    f.len = 32 + nodes_len;
    f.bytes = block(f.len);
    put(f.bytes, version, 8);
    put(f.bytes + 8, 7, 8);
    if (nodes_len > 0)
        memcpy(f.bytes + 16, nodes, nodes_len);
    put(f.bytes + 16 + nodes_len, keys, 8);
    put(f.bytes + 24 + nodes_len, nodes_len > 0 ? 15 + nodes_len : 0, 8);
    return f;
}

/* ---- conversion */

/* Out and table are blocks of so many bytes and entries; the new file is want_file, and the table has `to` at `from` and 0 elsewhere. */
static void convert_row(const char *name, file f, size_t entries, size_t out_len, size_t table_len, int32_t want, file want_file,
                        size_t from, uint32_t to)
{
    uint8_t *copy = block(f.len), *out = block(out_len);
    uint16_t *depths = block(entries * sizeof *depths), *depths_want = block(entries * sizeof *depths);
    uint64_t *sums = block(entries * sizeof *sums), *sums_want = block(entries * sizeof *sums);
    uint32_t *table = block(table_len * sizeof *table);
    size_t *len = block(sizeof *len);
    memcpy(copy, f.bytes, f.len);
    row = name;
    calls++;
    expect_number((uint64_t)fst_convert(f.bytes, f.len, depths, entries, sums, entries, out, out_len, table, table_len, len),
                  (uint64_t)want, "fst_convert");
    if (want == FST_OK) {
        expect_number(*len, want_file.len, "len");
        expect(memcmp(out, want_file.bytes, want_file.len) == 0, "the new file");
        expect(untouched(out + want_file.len, out_len - want_file.len), "the output behind the new file");
        for (size_t i = 0; i < f.len; i++)
            expect_number(table[i], i == from ? to : 0, "an entry of the table");
        expect(untouched(table + f.len, (table_len - f.len) * sizeof *table), "the table behind the file");
    } else {
        expect(untouched(len, sizeof *len), "len");
        expect(untouched(out, out_len), "the output");
        expect(untouched(table, table_len * sizeof *table), "the table");
    }
    /* the two work tables are as admission leaves them */
    fst_admit(f.bytes, f.len, depths_want, entries, sums_want, entries);
    expect(memcmp(depths, depths_want, entries * sizeof *depths) == 0, "depths");
    expect(memcmp(sums, sums_want, entries * sizeof *sums) == 0, "sums");
    expect(memcmp(f.bytes, copy, f.len) == 0, "the file");
    free(len);
    free(table);
    free(sums_want);
    free(sums);
    free(depths_want);
    free(depths);
    free(out);
    free(copy);
}

static const uint8_t v_nodes[] = { 0x00, 0x00, 0x40, 0x00, 0x00, 0x02, 0x00, 0x01, 0x62, 0x61, 0x11, 0x42 };

static void convert_rows(void)
{
    static const uint8_t v2_nodes[] = { 0x00, 0x00, 0x02, 0x00, 0x00, 0x62, 0x61, 0x11, 0x42 };
    static const uint8_t vanishing[] = { 0x03, 0x01, 0x00, 0x40, 0x00, 0x00, 0x40 };
    static const uint8_t broken[] = { 0x01, 0x00, 0x00, 0x40, 0x00, 0x00, 0x40 };
    file v = make(1, v_nodes, sizeof v_nodes, 3), v2 = make(2, v2_nodes, sizeof v2_nodes, 3);
    file gone = make(1, vanishing, sizeof vanishing, 3), none = make(2, NULL, 0, 3), older = make(1, NULL, 0, 3);
    file lost = make(1, broken, sizeof broken, 3);
    file no_key = make(1, "\0\0\0", 3, 0), no_key2 = make(2, "\0\0\0", 3, 0);
    file blank = { NULL, 0 };
    size_t len = 5;

    convert_row("convert V", v, v.len, 41, v.len, FST_OK, v2, 27, 24);
    convert_row("convert V, longer buffers", v, v.len + 3, 50, v.len + 2, FST_OK, v2, 27, 24);
    convert_row("convert V, output one short", v, v.len, 40, v.len, FST_ERR_SPACE, v2, 0, 0);
    convert_row("convert V, table one short", v, v.len, 41, v.len - 1, FST_ERR_SPACE, v2, 0, 0);
    convert_row("convert V, work tables one short", v, v.len - 1, 41, v.len, FST_ERR_SPACE, v2, 0, 0);
    convert_row("convert a root that vanishes", gone, gone.len, 40, gone.len, FST_OK, none, 0, 0);
    convert_row("convert root 0", older, older.len, 32, older.len, FST_OK, none, 0, 0);
    convert_row("convert no keys", no_key, no_key.len, 35, no_key.len, FST_OK, no_key2, 18, 18);
    convert_row("convert version 2", v2, v2.len, 50, v2.len, FST_ERR_EDITION, v2, 0, 0);
    convert_row("convert version 2, short tables", v2, v2.len - 1, 50, v2.len, FST_ERR_SPACE, v2, 0, 0);
    convert_row("convert a broken chain", lost, lost.len, 50, lost.len, FST_ERR_NODE, v2, 0, 0);
    row = "convert NULL";
    calls += 2;
    expect_number((uint64_t)fst_convert(blank.bytes, blank.len, NULL, 0, NULL, 0, NULL, 0, NULL, 0, &len), FST_ERR_EDITION, "a blank card");
    expect_number((uint64_t)fst_convert(v.bytes, v.len, NULL, 0, NULL, 0, NULL, 0, NULL, 0, &len), FST_ERR_SPACE, "no buffers");
    expect_number(len, 5, "len");
    free(v.bytes);
    free(v2.bytes);
    free(gone.bytes);
    free(none.bytes);
    free(older.bytes);
    free(lost.bytes);
    free(no_key.bytes);
    free(no_key2.bytes);
}

/* ---- packing */

typedef struct pair {
    const char *key;
    size_t len;
    uint64_t value;
} pair;

/* The bytes of a list. */
static file list_of(const pair *pairs, size_t n)
{
    file f;
    size_t total = 0, end = 0;
    for (size_t i = 0; i < n; i++)
        total += pairs[i].len;
    f.len = FST_LIST_LEN(n, total);
    f.bytes = block(f.len);
    put(f.bytes, n, 4);
    put(f.bytes + 4, total, 4);
    for (size_t i = 0; i < n; i++) {
        if (pairs[i].len > 0)
            memcpy(f.bytes + 8 + 12 * n + end, pairs[i].key, pairs[i].len);
        end += pairs[i].len;
        put(f.bytes + 8 + 4 * i, end, 4);
        put(f.bytes + 8 + 4 * n + 8 * i, pairs[i].value, 8);
    }
    return f;
}

static uint8_t *inputs;
static uint64_t *leasts;
static size_t *targets;

/* Every buffer is filled with MARK before: what it held does not matter. On FST_OK each pair is read back, and nothing else is held. */
static void pack_row(const char *name, file list, size_t cells_len, size_t table_len, size_t out_len, int32_t want, size_t want_len,
                     const pair *pairs, size_t n)
{
    uint8_t *out = block(out_len);
    fst_cell *cells = block(cells_len * sizeof *cells);
    size_t *len = block(sizeof *len), i;
    inputs = block(table_len);
    leasts = block(table_len * sizeof *leasts);
    targets = block(table_len * sizeof *targets);
    row = name;
    calls++;
    expect_number((uint64_t)fst_pack(list.bytes, list.len, out, out_len, cells, cells_len, inputs, table_len, leasts, table_len, targets, table_len, len),
                  (uint64_t)want, "fst_pack");
    for (i = 0; i < table_len; i++)
        expect(inputs[i] == 0 && leasts[i] == 0 && targets[i] == 0, "an entry of a working table");
    if (want == FST_OK) {
        uint16_t *depths = block(want_len * sizeof *depths);
        uint64_t *sums = block(want_len * sizeof *sums), *counts = block(want_len * sizeof *counts), value;
        fst_reading *reading = block(sizeof *reading);
        expect_number(*len, want_len, "len");
        for (i = want_len; i < out_len; i++)
            expect(out[i] == 0, "a byte behind the file");
        expect_number((uint64_t)fst_count(out, want_len, depths, want_len, sums, want_len, counts, want_len), FST_OK, "fst_count");
        expect_number((uint64_t)fst_start(out, want_len, NULL, NULL, counts, want_len, reading), FST_OK, "fst_start");
        expect_number(fst_to_come(reading), n, "the number of keys");
        for (i = 0; i < n; i++) {
            expect_number((uint64_t)fst_get(out, want_len, (const uint8_t *)pairs[i].key, pairs[i].len, &value), FST_OK, "fst_get");
            expect_number(value, pairs[i].value, "a value");
        }
        free(reading);
        free(counts);
        free(sums);
        free(depths);
    } else {
        expect(untouched(len, sizeof *len), "len");
        for (i = 0; i < out_len; i++)
            expect(out[i] == 0, "a byte of the output");
        for (i = 0; i < cells_len; i++)
            expect(cells[i].address == 1 && cells[i].hash == 0, "a cell");
    }
    free(targets);
    free(leasts);
    free(inputs);
    free(len);
    free(cells);
    free(out);
}

static void pack_rows(void)
{
    static const pair d[] = { { "a", 1, 1 }, { "at", 2, 3 }, { "e", 1, 4 } };
    static const pair empty[] = { { "", 0, 0 } }, seven[] = { { "", 0, 7 } }, a[] = { { "a", 1, 0 } }, a1[] = { { "a", 1, 1 } };
    static const pair hashes[] = { { "1a", 2, 0 }, { "1c", 2, 5 }, { "2b", 2, 0 }, { "2c", 2, UINT64_C(2319356264794259026) } };
    static const pair twice[] = { { "a", 1, 1 }, { "a", 1, 1 } }, falling[] = { { "b", 1, 1 }, { "a", 1, 2 } };
    char wide[256];
    const pair too_long[] = { { wide, 256, 1 } }, longest[] = { { wide, 255, UINT64_MAX } };
    const size_t t = FST_PACK_TABLE;
    file none = list_of(d, 0), list = list_of(d, 3), other;
    size_t len = 5;

    memset(wide, 'w', sizeof wide);
    pack_row("pack none", none, 2, t, 35, FST_OK, 35, NULL, 0);
    other = list_of(empty, 1);
    pack_row("pack the empty key", other, 2, t, 40, FST_OK, 32, empty, 1);
    free(other.bytes);
    other = list_of(seven, 1);
    pack_row("pack the empty key, 7", other, 2, t, 36, FST_OK, 36, seven, 1);
    free(other.bytes);
    other = list_of(a, 1);
    pack_row("pack a", other, 3, t + 1, 35, FST_OK, 35, a, 1);
    free(other.bytes);
    other = list_of(a1, 1);
    pack_row("pack a, 1", other, 2, t, 36, FST_OK, 36, a1, 1);
    free(other.bytes);
    other = list_of(hashes, 4);
    pack_row("pack two nodes with one hash", other, 2, t, 68, FST_OK, 68, hashes, 4);
    free(other.bytes);
    other = list_of(longest, 1);
    pack_row("pack 255 bytes", other, 20, t, 4000, FST_OK, 299, longest, 1);
    free(other.bytes);
    pack_row("pack D", list, 64, t, 100, FST_OK, 46, d, 3);
    pack_row("pack D, output one short", list, 64, t, 45, FST_ERR_SPACE, 0, NULL, 0);
    pack_row("pack D, one cell", list, 1, t, 100, FST_ERR_SPACE, 0, NULL, 0);
    pack_row("pack D, tables one short", list, 64, t - 1, 100, FST_ERR_SPACE, 0, NULL, 0);
    list.len--;
    pack_row("pack D, list one short", list, 0, 3, 40, FST_ERR_LIST, 0, NULL, 0);
    list.len = 7;
    pack_row("pack 7 bytes", list, 4, t, 40, FST_ERR_LIST, 0, NULL, 0);
    other = list_of(twice, 2);
    pack_row("pack a twice", other, 4, t, 40, FST_ERR_LIST, 0, NULL, 0);
    free(other.bytes);
    other = list_of(falling, 2);
    pack_row("pack keys that fall", other, 4, t, 40, FST_ERR_LIST, 0, NULL, 0);
    free(other.bytes);
    other = list_of(too_long, 1);
    pack_row("pack 256 bytes", other, 4, t, 40, FST_ERR_LIST, 0, NULL, 0);
    free(other.bytes);
    row = "pack NULL";
    calls += 2;
    expect_number((uint64_t)fst_pack(NULL, 0, NULL, 0, NULL, 0, NULL, 0, NULL, 0, NULL, 0, &len), FST_ERR_LIST, "no list");
    expect_number((uint64_t)fst_pack(none.bytes, none.len, NULL, 0, NULL, 0, NULL, 0, NULL, 0, NULL, 0, &len), FST_ERR_SPACE, "no buffers");
    expect_number(len, 5, "len");
    free(list.bytes);
    free(none.bytes);
}

/* ---- a reading carried */

static void carry_row(const char *name, file old, file new, fst_reading *reading, int32_t want)
{
    fst_reading was = *reading;
    row = name;
    calls++;
    expect_number((uint64_t)fst_carry(old.bytes, old.len, new.bytes, new.len, reading), (uint64_t)want, "fst_carry");
    expect_number(fst_to_come(reading), fst_to_come(&was), "the number of keys to come");
    expect(want == FST_OK || memcmp(reading, &was, sizeof was) == 0, "the reading");
}

static void next_is(file f, fst_reading *reading, int32_t want, const char *key, uint64_t value)
{
    uint8_t buffer[FST_KEY_SPACE];
    size_t len = 0;
    uint64_t got = 0;
    calls++;
    expect_number((uint64_t)fst_next(f.bytes, f.len, reading, buffer, sizeof buffer, &len, &got), (uint64_t)want, "fst_next");
    if (want == FST_OK) {
        expect(len == strlen(key) && memcmp(buffer, key, len) == 0, "the key");
        expect_number(got, value, "the value");
    }
}

static void carry_rows(void)
{
    file v = make(1, v_nodes, sizeof v_nodes, 3), other = make(2, "\0\x10\x85", 3, 1), blank = { NULL, 0 }, brief = { v.bytes, 5 }, converted;
    uint16_t *depths = block(v.len * sizeof *depths);
    uint64_t *sums = block(v.len * sizeof *sums), *counts = block(v.len * sizeof *counts);
    uint32_t *table = block(v.len * sizeof *table);
    fst_reading reading, half, begun;

    /* half way down the list the file is converted, and the reading goes on in the new file */
    row = "carry V";
    memset(&reading, MARK, sizeof reading); /* also the byte behind its last field, which is compared */
    converted.bytes = block(100);
    fst_count(v.bytes, v.len, depths, v.len, sums, v.len, counts, v.len);
    fst_start(v.bytes, v.len, NULL, NULL, counts, v.len, &reading);
    begun = reading;
    next_is(v, &reading, FST_OK, "", 0);
    next_is(v, &reading, FST_OK, "a", 2);
    half = reading;
    expect_number((uint64_t)fst_convert(v.bytes, v.len, depths, v.len, sums, v.len, converted.bytes, 100, table, v.len, &converted.len), FST_OK, "fst_convert");
    carry_row("carry V after a", v, converted, &reading, FST_OK);
    expect(reading.head[0] == 41 && reading.head[6] == 2 && reading.addrs[0] == 24 && reading.addrs[1] == 0 && reading.outs[1] == 2, "the levels");
    next_is(converted, &reading, FST_OK, "b", 0);
    next_is(converted, &reading, FST_END, NULL, 0);
    carry_row("carry V just started", v, converted, &begun, FST_OK);
    next_is(converted, &begun, FST_OK, "", 0);
    next_is(converted, &begun, FST_OK, "a", 2);
    next_is(converted, &begun, FST_OK, "b", 0);
    next_is(converted, &begun, FST_END, NULL, 0);
    carry_row("carry V after a to itself", v, v, &half, FST_OK);
    carry_row("carry V after a to another file", v, other, &half, FST_ERR_CARRY);
    carry_row("carry V after a to a blank card", v, blank, &half, FST_ERR_NODE);
    carry_row("carry V after a to 5 bytes", v, brief, &half, FST_ERR_SHORT);
    carry_row("carry of another length", converted, v, &half, FST_ERR_STATE);
    half.head[6] = 257;
    carry_row("carry 257 levels", v, converted, &half, FST_ERR_STATE);
    free(converted.bytes);
    free(table);
    free(counts);
    free(sums);
    free(depths);
    free(other.bytes);
    free(v.bytes);
}

int main(void)
{
    convert_rows();
    pack_rows();
    carry_rows();
    printf("files: %d calls, %d differences\n", calls, differences);
    return differences > 0;
}
