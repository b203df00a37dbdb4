/* Calls every function of include/baxhiso.h on files around the largest length, and checks the result and what is written.
 *
 * A file is an anonymous mapping of zeros, so that it takes memory only where it is read or written: its header, its trailer
 * and the nodes that are met. While it is lent it may only be read, and it ends at a page that may not be touched: a step
 * beyond it, or a byte written to it, ends the program. Nothing is reserved for the tables, which would have 40 GiB. */
#define _DEFAULT_SOURCE
#include <stdio.h>
#include <stdlib.h>
#include <string.h>
#include <sys/mman.h>

#include "baxhiso.h"

#define PAGE ((size_t)4096)
#define MARK UINT64_C(0xA5A5A5A5A5A5A5A5)

static const char *row;
static int calls, differences;

static void expect_number(uint64_t got, uint64_t want, const char *what)
{
    if (got != want) {
        differences++;
        printf("%s: %s is %llu, not %llu\n", row, what, (unsigned long long)got, (unsigned long long)want);
    }
}

/* Zeros that can be read and written. */
static void *map(size_t bytes)
{
    void *p = mmap(NULL, bytes, PROT_READ | PROT_WRITE, MAP_PRIVATE | MAP_ANONYMOUS | MAP_NORESERVE, -1, 0);
    if (p == MAP_FAILED) {
        perror("no room for the addresses");
        exit(2);
    }
    return p;
}

/* ---- files */

typedef struct file {
    uint8_t *bytes;
    size_t len;
    uint8_t *mapped;
    size_t mapped_len;
} file;

static file zeros(size_t len)
{
    file f;
    size_t pages = (len + PAGE - 1) / PAGE * PAGE;
    f.len = len;
    f.mapped_len = pages + PAGE;
    f.mapped = map(f.mapped_len);
    f.bytes = f.mapped + (pages - len);
    if (mprotect(f.mapped + pages, PAGE, PROT_NONE) != 0) {
        perror("mprotect");
        exit(2);
    }
    return f;
}

static void put(file f, size_t at, uint64_t number, int size)
{
    for (int i = 0; i < size; i++)
        f.bytes[at + (size_t)i] = (uint8_t)(number >> (8 * i));
}

/* From here on the file may only be read. */
static void lend(file f)
{
    if (mprotect(f.mapped, f.mapped_len - PAGE, PROT_READ) != 0) {
        perror("mprotect");
        exit(2);
    }
}

static void drop(file f)
{
    munmap(f.mapped, f.mapped_len);
}

/* ---- one runner for each function */

static void open_row(const char *name, file f, int32_t want, uint64_t version, uint64_t root)
{
    fst_meta meta = { MARK, MARK, MARK, MARK, MARK };
    row = name;
    calls++;
    expect_number((uint64_t)fst_open(f.bytes, f.len, &meta), (uint64_t)want, "fst_open");
    expect_number(meta.version, want == FST_OK ? version : MARK, "version");
    expect_number(meta.type, want == FST_OK ? 0 : MARK, "type");
    expect_number(meta.keys, want == FST_OK ? 0 : MARK, "keys");
    expect_number(meta.root, want == FST_OK ? root : MARK, "root");
    expect_number(meta.checksum, want != FST_OK ? MARK : version == 3 ? 0 : FST_NO_CHECKSUM, "checksum");
}

static void get_row(const char *name, file f, const char *key, int32_t want, uint64_t value)
{
    uint64_t got = MARK;
    row = name;
    calls++;
    expect_number((uint64_t)fst_get(f.bytes, f.len, (const uint8_t *)key, strlen(key), &got), (uint64_t)want, "fst_get");
    expect_number(got, want == FST_OK ? value : MARK, "value");
}

static void get_key_row(const char *name, file f, uint64_t value, int32_t want, const char *key)
{
    uint8_t buffer[FST_KEY_SPACE];
    size_t len = (size_t)MARK, key_len = want == FST_OK ? strlen(key) : 0;
    memset(buffer, (int)(MARK & 0xFF), sizeof buffer);
    row = name;
    calls++;
    expect_number((uint64_t)fst_get_key(f.bytes, f.len, value, buffer, sizeof buffer, &len), (uint64_t)want, "fst_get_key");
    expect_number(len, want == FST_OK ? key_len : MARK, "key_len");
    for (size_t i = 0; i < sizeof buffer; i++)
        expect_number(buffer[i], i < key_len ? (uint8_t)key[i] : MARK & 0xFF, "a byte of the key buffer");
}

/* Refused before any entry is written. Marked are entries at the tables' ends and at nodes of the sparse file. */
static void admit_row(const char *name, file f, size_t depths_len, size_t sums_len, int32_t want)
{
    const size_t marked[] = { 0, 21, 2147483648u, 4294967270u, 4294967293u };
    uint16_t *depths = map((depths_len + 1) * sizeof *depths);
    uint64_t *sums = map((sums_len + 1) * sizeof *sums);
    size_t i;
    for (i = 0; i < sizeof marked / sizeof *marked; i++) {
        if (marked[i] < depths_len)
            depths[marked[i]] = (uint16_t)MARK;
        if (marked[i] < sums_len)
            sums[marked[i]] = MARK;
    }
    row = name;
    calls++;
    expect_number((uint64_t)fst_admit(f.bytes, f.len, depths, depths_len, sums, sums_len), (uint64_t)want, "fst_admit");
    for (i = 0; i < sizeof marked / sizeof *marked; i++) {
        if (marked[i] < depths_len)
            expect_number(depths[marked[i]], (uint16_t)MARK, "an entry of depths");
        if (marked[i] < sums_len)
            expect_number(sums[marked[i]], MARK, "an entry of sums");
    }
    munmap(depths, (depths_len + 1) * sizeof *depths);
    munmap(sums, (sums_len + 1) * sizeof *sums);
}

/* Refused for the file's length alone: no table, bound or reading is looked at. */
static void reading_row(const char *name, file f, int32_t want)
{
    uint16_t depths[1] = { (uint16_t)MARK };
    uint64_t sums[1] = { MARK }, counts[1] = { MARK }, value = MARK;
    uint8_t key[FST_KEY_SPACE];
    size_t len = (size_t)MARK, count = (size_t)MARK;
    fst_row rows[1];
    fst_reading reading, kept;
    memset(&reading, (int)(MARK & 0xFF), sizeof reading);
    kept = reading;
    row = name;
    calls += 5;
    expect_number((uint64_t)fst_range(f.bytes, f.len, NULL, NULL, 1, rows, counts, &count), (uint64_t)want, "fst_range");
    expect_number(count, 0, "count");
    count = (size_t)MARK;
    expect_number((uint64_t)fst_find(f.bytes, f.len, NULL, 0, 1, NULL, NULL, 1, rows, counts, &count), (uint64_t)want, "fst_find");
    expect_number(count, 0, "count");
    expect_number((uint64_t)fst_count(f.bytes, f.len, depths, 1, sums, 1, counts, 1), (uint64_t)want, "fst_count");
    expect_number((uint64_t)fst_start(f.bytes, f.len, NULL, NULL, counts, 1, &reading), (uint64_t)want, "fst_start");
    expect_number((uint64_t)fst_next(f.bytes, f.len, &reading, key, sizeof key, &len, &value), (uint64_t)want, "fst_next");
    expect_number(depths[0], (uint16_t)MARK, "an entry of depths");
    expect_number(sums[0] == MARK && counts[0] == MARK && value == MARK && len == (size_t)MARK, 1, "all left as it was");
    /* a made reading is written back in its plain form: of its kind and its pending key only what counts */
    reading.head[1] = kept.head[1];
    reading.head[3] = kept.head[3];
    expect_number((uint64_t)memcmp(&reading, &kept, sizeof kept), 0, "the reading");
}

/* Refused for the file's length alone, in the order that the header says: an old file is judged before a new one. */
static void carry_row(const char *name, file f, int32_t want)
{
    const uint8_t few[5] = { 0 };
    fst_reading reading, kept;
    memset(&reading, (int)(MARK & 0xFF), sizeof reading);
    reading.head[6] = 0;
    reading.head[2] = 0;
    reading.head[0] = f.len;
    kept = reading;
    row = name;
    calls += 5;
    expect_number((uint64_t)fst_carry(f.bytes, f.len, f.bytes, f.len, &reading), (uint64_t)want, "fst_carry, both files");
    expect_number((uint64_t)fst_carry(f.bytes, f.len, few, sizeof few, &reading), (uint64_t)want, "fst_carry from it, to 5 bytes");
    expect_number((uint64_t)fst_carry(few, sizeof few, f.bytes, f.len, &reading), FST_ERR_SHORT, "fst_carry from 5 bytes, to it");
    expect_number((uint64_t)fst_carry(f.bytes, f.len, NULL, 0, &reading), (uint64_t)want, "fst_carry from it, to a blank card");
    expect_number((uint64_t)fst_carry(NULL, 0, f.bytes, f.len, &reading), (uint64_t)want, "fst_carry from a blank card, to it");
    expect_number((uint64_t)memcmp(&reading, &kept, sizeof kept), 0, "the reading");
}

/* Refused for the file's length alone: no buffer is looked at. */
static void convert_row(const char *name, file f, int32_t want)
{
    uint16_t depths[1] = { (uint16_t)MARK };
    uint64_t sums[1] = { MARK };
    uint32_t table[1] = { (uint32_t)MARK };
    uint8_t out[1] = { (uint8_t)MARK };
    size_t len = (size_t)MARK;
    row = name;
    calls++;
    expect_number((uint64_t)fst_convert(f.bytes, f.len, depths, 1, sums, 1, out, 1, table, 1, &len), (uint64_t)want, "fst_convert");
    expect_number(depths[0] == (uint16_t)MARK && sums[0] == MARK && table[0] == (uint32_t)MARK && out[0] == (uint8_t)MARK && len == (size_t)MARK, 1,
                  "all left as it was");
}

/* The bytes are no list: with no key a list has 8 bytes, and a key that fills the rest is over 255 bytes. A file over FST_MAX_LEN, for which fst_pack
 * answers FST_ERR_LARGE, would take gigabytes of output and is not made here. */
static void pack_row(const char *name, file f)
{
    static uint8_t out[40], inputs[FST_PACK_TABLE];
    static uint64_t leasts[FST_PACK_TABLE];
    static size_t targets[FST_PACK_TABLE];
    fst_cell cells[2];
    size_t len = (size_t)MARK;
    memset(out, (int)(MARK & 0xFF), sizeof out);
    row = name;
    calls++;
    expect_number((uint64_t)fst_pack(f.bytes, f.len, out, sizeof out, cells, 2, inputs, FST_PACK_TABLE, leasts, FST_PACK_TABLE, targets, FST_PACK_TABLE, &len),
                  FST_ERR_LIST, "fst_pack");
    expect_number(len, (size_t)MARK, "len");
    expect_number(cells[0].address == 1 && cells[0].hash == 0 && cells[1].address == 1 && cells[1].hash == 0, 1, "the cells are empty");
    for (size_t i = 0; i < sizeof out; i++)
        expect_number(out[i], 0, "a byte of the output");
}

/* One key of total bytes, from a first end that is the total. */
static void long_list_row(const char *name, uint64_t total)
{
    file f = zeros((size_t)(20 + total));
    put(f, 0, 1, 4);
    put(f, 4, total, 4);
    put(f, 8, total, 4);
    lend(f);
    pack_row(name, f);
    drop(f);
}

/* ---- the sparse file */

/* A file of the largest length: from 16 up a node that is final with 7 and leads on with x/1 to 0, at 2^31 one that is final
 * with 2 and leads to the first with m/3, and a root just below the trailer that leads to both and to 0, with a/0, b/20 and
 * c/100. Its keys are a: 7, ax: 1, b: 22, bm: 30, bmx: 24, c: 100. It is not admitted, since zeros are no chain of nodes. */
static file sparse(uint64_t version, uint64_t *root)
{
    static const uint8_t low[] = { 0x07, 0x01, 0x00, 0x78, 0x11, 0x41 };
    static const uint8_t middle[] = { 0x02, 0x03, 0xEB, 0xFF, 0xFF, 0x7F, 0x6D, 0x41, 0x41 };
    /* outputs of c, b and a; deltas of c, b and a, which are written below; inputs; sizes; three transitions */
    static const uint8_t top[] = { 0x64, 0x14, 0x00, 0, 0, 0, 0, 0, 0, 0, 0, 0, 0, 0, 0, 0x63, 0x62, 0x61, 0x41, 0x03 };
    file f = zeros(FST_MAX_LEN);
    size_t end = f.len - (version == 3 ? 20 : 16), first = end - sizeof top;
    memcpy(f.bytes + 16, low, sizeof low);
    memcpy(f.bytes + 2147483648u, middle, sizeof middle);
    memcpy(f.bytes + first, top, sizeof top);
    put(f, first + 7, first - (2147483648u + sizeof middle - 1), 4);
    put(f, first + 11, first - (16 + sizeof low - 1), 4);
    *root = end - 1;
    put(f, 0, version, 8);
    put(f, end + 8, *root, 8);
    lend(f);
    return f;
}

static void sparse_rows(uint64_t version)
{
    uint64_t root;
    file f = sparse(version, &root);
    size_t n = f.len;
    open_row("sparse", f, FST_OK, version, root);
    expect_number(root, version == 3 ? 4294967274u : 4294967278u, "the root");
    get_row("sparse, a", f, "a", FST_OK, 7);
    get_row("sparse, ax", f, "ax", FST_OK, 1);
    get_row("sparse, b", f, "b", FST_OK, 22);
    get_row("sparse, bm", f, "bm", FST_OK, 30);
    get_row("sparse, bmx", f, "bmx", FST_OK, 24);
    get_row("sparse, c", f, "c", FST_OK, 100);
    get_row("sparse, empty key", f, "", FST_NONE, 0);
    get_row("sparse, ca", f, "ca", FST_NONE, 0);
    get_row("sparse, d", f, "d", FST_NONE, 0);
    /* by value, final outputs are not counted */
    get_key_row("sparse, 0", f, 0, FST_OK, "a");
    get_key_row("sparse, 1", f, 1, FST_OK, "ax");
    get_key_row("sparse, 20", f, 20, FST_OK, "b");
    get_key_row("sparse, 23", f, 23, FST_OK, "bm");
    get_key_row("sparse, 24", f, 24, FST_OK, "bmx");
    get_key_row("sparse, 100", f, 100, FST_OK, "c");
    get_key_row("sparse, 22", f, 22, FST_NONE, NULL);
    get_key_row("sparse, 101", f, 101, FST_NONE, NULL);
    admit_row("sparse, depths one short", f, n - 1, n, FST_ERR_SPACE);
    admit_row("sparse, sums one short", f, n, n - 1, FST_ERR_SPACE);
    admit_row("sparse, both one short", f, n - 1, n - 1, FST_ERR_SPACE);
    admit_row("sparse, no entries", f, 0, 0, FST_ERR_SPACE);
    drop(f);
}

/* ---- zeros, in every function */

static void zeros_row(const char *name, size_t len, int32_t want)
{
    file f = zeros(len);
    lend(f);
    open_row(name, f, want, 0, 0);
    get_row(name, f, "a", want, 0);
    get_key_row(name, f, 3, want, NULL);
    admit_row(name, f, 10, 10, want);
    reading_row(name, f, want);
    convert_row(name, f, want);
    carry_row(name, f, want);
    pack_row(name, f);
    drop(f);
}

/* A right root, in a file that is longer than the longest. */
static void long_row(const char *name, size_t len)
{
    for (uint64_t version = 1; version <= 3; version++) {
        file f = zeros(len);
        size_t end = len - (version == 3 ? 20 : 16);
        put(f, 0, version, 8);
        put(f, end + 8, end - 1, 8);
        lend(f);
        open_row(name, f, FST_ERR_LARGE, 0, 0);
        get_row(name, f, "", FST_ERR_LARGE, 0);
        drop(f);
    }
}

int main(void)
{
    zeros_row("16,777,216 zeros", 16777216, FST_ERR_VERSION);
    zeros_row("16,777,217 zeros", 16777217, FST_ERR_VERSION);
    zeros_row("4,294,967,295 zeros", 4294967295u, FST_ERR_VERSION);
    zeros_row("4,294,967,296 zeros", 4294967296u, FST_ERR_LARGE);
    zeros_row("4,294,967,332 zeros", 4294967332u, FST_ERR_LARGE);
    zeros_row("8,589,934,592 zeros", 8589934592u, FST_ERR_LARGE);
    expect_number(FST_MAX_LEN, 4294967295u, "FST_MAX_LEN");
    long_row("4,294,967,296 bytes, right root", 4294967296u);
    long_row("4,294,967,332 bytes, right root", 4294967332u);
    long_row("8,589,934,592 bytes, right root", 8589934592u);
    long_list_row("a list of 4,294,967,315 bytes", 4294967295u);
    long_list_row("a list of 4,294,967,295 bytes", 4294967275u);
    for (uint64_t version = 1; version <= 3; version++)
        sparse_rows(version);
    printf("%d calls on files around 4 GiB, %d differences\n", calls, differences);
    return differences > 0;
}
