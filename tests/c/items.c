/* Calls fst_items and fst_items_rows and checks the result, the items and every place of the buffers afterwards.
 *
 * The files are packed here. Every buffer ends where its page ends, and the next page may not be touched, so that a step beyond it ends the program. What
 * is not to be written is filled with MARK. The first rows are document 02's table for N5. */
#define _DEFAULT_SOURCE
#include <stdio.h>
#include <stdlib.h>
#include <string.h>
#include <sys/mman.h>
#include <unistd.h>

#include "baxhiso.h"

#define MARK 0xA5
#define MOST 16

static const char *row;
static int calls, differences;

static void expect(int holds, const char *what)
{
    if (!holds) {
        differences++;
        printf("%s: %s differs\n", row, what);
    }
}

/* So many bytes that end where a page ends, filled with MARK, before a page that may not be touched. */
static void *guarded(size_t bytes)
{
    const size_t page = (size_t)sysconf(_SC_PAGESIZE), pages = (bytes + page - 1) / page;
    uint8_t *p = mmap(NULL, (pages + 1) * page, PROT_READ | PROT_WRITE, MAP_PRIVATE | MAP_ANONYMOUS, -1, 0);
    if (p == MAP_FAILED || mprotect(p + pages * page, page, PROT_NONE) != 0) {
        printf("no memory\n");
        exit(2);
    }
    memset(p, MARK, pages * page);
    return p + pages * page - bytes;
}

static void unguard(void *at, size_t bytes)
{
    const size_t page = (size_t)sysconf(_SC_PAGESIZE), pages = (bytes + page - 1) / page;
    munmap((uint8_t *)at + bytes - pages * page, (pages + 1) * page);
}

/* ---- files */

static void put(uint8_t *at, uint64_t number, int size)
{
    for (int i = 0; i < size; i++)
        at[i] = (uint8_t)(number >> (8 * i));
}

/* A file of keys of one byte, or none for a blank in the text, with a digit for each value: "a1b2" and " 7a1". */
static fst_file packed(const char *text)
{
    static uint8_t inputs[FST_PACK_TABLE], list[512], out[1024];
    static uint64_t leasts[FST_PACK_TABLE];
    static size_t targets[FST_PACK_TABLE];
    static fst_cell cells[64];
    size_t n = strlen(text) / 2, bytes = 0, len = 0;
    for (size_t i = 0; i < n; i++) {
        if (text[2 * i] != ' ')
            list[8 + 12 * n + bytes++] = (uint8_t)text[2 * i];
        put(list + 8 + 4 * i, bytes, 4);
        put(list + 8 + 4 * n + 8 * i, (uint64_t)(text[2 * i + 1] - '0'), 8);
    }
    put(list, n, 4);
    put(list + 4, bytes, 4);
    if (fst_pack(list, FST_LIST_LEN(n, bytes), out, sizeof out, cells, 64, inputs, FST_PACK_TABLE, leasts, FST_PACK_TABLE, targets, FST_PACK_TABLE, &len) != FST_OK) {
        printf("%s is not packed\n", text);
        exit(2);
    }
    uint8_t *kept = guarded(len);
    memcpy(kept, out, len);
    return (fst_file){ kept, len };
}

/* ---- a call, with buffers of exactly the length that it is given */

typedef struct page {
    fst_row *rows;
    uint8_t *counts;
    uint8_t (*numbers)[FST_FILES];
    uint64_t (*values)[FST_FILES];
    size_t most, found;
} page;

static page lent(size_t most)
{
    page p = { guarded(most * sizeof *p.rows), guarded(most), guarded(most * sizeof *p.numbers), guarded(most * sizeof *p.values), most, MARK };
    return p;
}

static void give_back(page *p)
{
    unguard(p->rows, p->most * sizeof *p->rows);
    unguard(p->counts, p->most);
    unguard(p->numbers, p->most * sizeof *p->numbers);
    unguard(p->values, p->most * sizeof *p->values);
}

static int marked(const void *at, size_t bytes)
{
    const uint8_t *b = at;
    for (size_t i = 0; i < bytes; i++)
        if (b[i] != MARK)
            return 0;
    return 1;
}

/* What a page may not have written: bytes behind a key, and everything from found on. An item's places behind its pairs are 0. */
static void expect_kept(const page *p)
{
    expect(p->found <= p->most, "the number of items");
    for (size_t i = 0; i < p->most; i++) {
        size_t len = i < p->found ? p->rows[i].len : 0, n = i < p->found ? p->counts[i] : 0;
        if (i < p->found) {
            expect(n >= 1 && n <= FST_FILES, "an item's number of values");
            expect(marked(p->rows[i].key + len, sizeof p->rows[i].key - len), "a row behind its key");
            for (size_t j = n; j < FST_FILES; j++)
                expect(p->numbers[i][j] == 0 && p->values[i][j] == 0, "a place behind the values");
        } else {
            expect(marked(&p->rows[i], sizeof p->rows[i]) && marked(&p->counts[i], 1) && marked(p->numbers[i], sizeof p->numbers[i]) &&
                   marked(p->values[i], sizeof p->values[i]), "an item that was not found");
        }
    }
}

/* The items in the table's words, "a 1@0 1@1; b 2@0; ". */
static void tell(const page *p, char *words)
{
    for (size_t i = 0; i < p->found; i++) {
        words += sprintf(words, "%.*s", (int)p->rows[i].len, (const char *)p->rows[i].key);
        for (size_t j = 0; j < p->counts[i]; j++)
            words += sprintf(words, " %llu@%u", (unsigned long long)p->values[i][j], p->numbers[i][j]);
        words += sprintf(words, "; ");
    }
    *words = '\0';
}

/* All items in one page, and page by page of one, two and three. */
static void items(const char *name, uint64_t op, const fst_file *files, size_t n, const fst_bound *lower, const fst_bound *upper, const char *want)
{
    static char words[4096];
    row = name;
    for (size_t most = 0; most <= 3; most++) {
        char *at = words;
        uint8_t last[FST_KEY_SPACE];
        fst_bound from = lower == NULL ? (fst_bound){ FST_UNBOUNDED, NULL, 0 } : *lower;
        int32_t result = FST_MORE;
        words[0] = '\0';
        while (result == FST_MORE) {
            page p = lent(most == 0 ? MOST : most);
            result = fst_items(op, files, n, &from, upper, p.most, p.rows, p.counts, p.numbers, p.values, &p.found);
            calls++;
            expect_kept(&p);
            tell(&p, at);
            at += strlen(at);
            expect((result == FST_MORE) == (p.found == p.most), "the result of a page");
            if (p.found > 0) {
                memcpy(last, p.rows[p.found - 1].key, p.rows[p.found - 1].len);
                from = (fst_bound){ FST_EXCLUDED, last, p.rows[p.found - 1].len };
            }
            give_back(&p);
        }
        expect(result == FST_END, "the last result");
        if (strcmp(words, want) != 0) {
            differences++;
            printf("%s: pages of %lu: '%s', not '%s'\n", name, (unsigned long)most, words, want);
        }
    }
}

/* A call that is refused before any item. */
static void refusal(const char *name, uint64_t op, const fst_file *files, size_t n, const fst_bound *lower, int32_t want)
{
    page p = lent(2);
    row = name;
    calls++;
    expect(fst_items(op, files, n, lower, NULL, p.most, p.rows, p.counts, p.numbers, p.values, &p.found) == want, "the result");
    expect(p.found == 0, "the number of items");
    expect_kept(&p);
    give_back(&p);
}

/* A call with room for `most` items but for one buffer, which has one place fewer. */
static void short_buffer(const char *name, const fst_file *f, size_t rows, size_t counts, size_t numbers, size_t values)
{
    uint8_t *r = guarded(rows), *c = guarded(counts), *n = guarded(numbers);
    uint64_t *v = guarded(values * 8);
    size_t found = MARK;
    row = name;
    calls++;
    expect(fst_items_rows(FST_UNION, 1, f->bytes, f->len, NULL, 0, NULL, 0, NULL, 0, NULL, 0, NULL, 0, NULL, 0, NULL, 0, FST_UNBOUNDED, NULL, 0,
                          FST_UNBOUNDED, NULL, 0, 2, r, rows, c, counts, n, numbers, v, values, &found) == FST_ERR_SPACE, "the result");
    expect(found == 0 && marked(r, rows) && marked(c, counts) && marked(n, numbers) && marked(v, values * 8), "a buffer");
    unguard(r, rows);
    unguard(c, counts);
    unguard(n, numbers);
    unguard(v, values * 8);
}

/* Each byte of the second file changed in turn: whatever is answered, nothing else is written. */
static void damaged(const fst_file *a, const fst_file *b)
{
    uint8_t *bytes = guarded(b->len);
    const fst_file files[] = { *a, { bytes, b->len }, *a };
    row = "damaged";
    for (size_t i = 0; i < b->len; i++) {
        for (int x = 1; x < 256; x = 2 * x + 1) {
            memcpy(bytes, b->bytes, b->len);
            bytes[i] ^= (uint8_t)x;
            for (uint64_t op = FST_UNION; op <= FST_SYMMETRIC_DIFFERENCE; op++) {
                page p = lent(MOST);
                int32_t result = fst_items(op, files, 3, NULL, NULL, p.most, p.rows, p.counts, p.numbers, p.values, &p.found);
                calls++;
                expect(result == FST_END || result == FST_MORE || (result >= 1 && result <= 11), "the result");
                expect_kept(&p);
                give_back(&p);
            }
        }
    }
    unguard(bytes, b->len);
}

int main(void)
{
    const fst_file A = packed("a1b2d9"), B = packed("a1c3d4"), C = packed("b2d4"), none = packed(""), empty = packed(" 7a1"), blank = { NULL, 0 };
    const fst_file abc[] = { A, B, C }, eight[] = { A, A, A, A, A, A, A, A }, with_empty[] = { empty, A }, blanks[] = { blank, B, none };
    const uint8_t five[5] = { 0 }, long_key[256] = { 0 };
    const fst_file first_bad[] = { { five, 5 }, A }, second_bad[] = { A, { five, 5 } };
    const fst_bound from_b = { FST_INCLUDED, (const uint8_t *)"b", 1 }, below_d = { FST_EXCLUDED, (const uint8_t *)"d", 1 };
    const fst_bound too_long = { FST_INCLUDED, long_key, 256 };
    static const uint64_t ops[] = { FST_UNION, FST_INTERSECTION, FST_DIFFERENCE, FST_SYMMETRIC_DIFFERENCE };
    items("union A B C", FST_UNION, abc, 3, NULL, NULL, "a 1@0 1@1; b 2@0 2@2; c 3@1; d 4@1 4@2 9@0; ");
    items("intersection A B C", FST_INTERSECTION, abc, 3, NULL, NULL, "d 4@1 4@2 9@0; ");
    items("symmetric difference A B C", FST_SYMMETRIC_DIFFERENCE, abc, 3, NULL, NULL, "c 3@1; d 4@1 4@2 9@0; ");
    items("difference A B", FST_DIFFERENCE, abc, 2, NULL, NULL, "b 2@0; ");
    for (int i = 0; i < 4; i++)
        items("one file", ops[i], abc, 1, NULL, NULL, "a 1@0; b 2@0; d 9@0; ");
    items("any other number", 77, abc, 3, NULL, NULL, "c 3@1; d 4@1 4@2 9@0; ");
    items("eight times, intersection", FST_INTERSECTION, eight, 8, NULL, NULL,
          "a 1@0 1@1 1@2 1@3 1@4 1@5 1@6 1@7; b 2@0 2@1 2@2 2@3 2@4 2@5 2@6 2@7; d 9@0 9@1 9@2 9@3 9@4 9@5 9@6 9@7; ");
    items("eight times, symmetric difference", FST_SYMMETRIC_DIFFERENCE, eight, 8, NULL, NULL, "");
    items("the empty key", FST_UNION, with_empty, 2, NULL, NULL, " 7@0; a 1@0 1@1; b 2@1; d 9@1; ");
    items("a blank card among them", FST_UNION, blanks, 3, NULL, NULL, "a 1@1; c 3@1; d 4@1; ");
    items("a blank card first", FST_DIFFERENCE, blanks, 3, NULL, NULL, "");
    items("all empty", FST_UNION, &none, 1, NULL, NULL, "");
    items("bounds", FST_UNION, abc, 3, &from_b, &below_d, "b 2@0 2@2; c 3@1; ");
    refusal("no file", FST_UNION, NULL, 0, NULL, FST_ERR_CARDS);
    refusal("nine files", FST_UNION, eight, 9, NULL, FST_ERR_CARDS);
    refusal("file 0 does not open", FST_UNION, first_bad, 2, NULL, FST_ERR_SHORT);
    refusal("file 1 does not open", FST_UNION, second_bad, 2, NULL, FST_ERR_SHORT);
    refusal("a bound is too long", FST_UNION, abc, 3, &too_long, FST_ERR_BOUND);
    refusal("file 0 does not open and a bound is too long", FST_UNION, first_bad, 2, &too_long, FST_ERR_SHORT);
    refusal("a bound is too long and file 1 does not open", FST_UNION, second_bad, 2, &too_long, FST_ERR_BOUND);
    short_buffer("rows short", &A, 511, 2, 16, 16);
    short_buffer("counts short", &A, 512, 1, 16, 16);
    short_buffer("numbers short", &A, 512, 2, 15, 16);
    short_buffer("values short", &A, 512, 2, 16, 15);
    damaged(&A, &B);
    printf("tests/c: %d calls over several files, %d differences\n", calls, differences);
    return differences > 0;
}
