/* Calls the functions of ranges, pages by pattern and readings on damaged files, readings and tables, each so many times (tests/c/README.md):
 *
 *     damage CALLS FILE...
 *
 * Every buffer that is lent ends at a page without access, and the file may only be read: a step beyond a buffer, or a byte
 * written to the file, ends the program. Of each call is checked that its result is one that the header names, and that what is to
 * stay stayed. Where the file is admitted and the table is its own, the keys have to ascend, to come as often as the number says, and
 * to have the values that fst_get answers; and page after page hands out the same keys, whatever the sizes of the pages, by pattern those of them that fit. */
#include "guarded.h"

static region depths_at, sums_at, counts_at, readings_at, keys_at, lens_at, values_at, lowers_at, uppers_at, rows_at, page_values_at, positions_at;

static unsigned long counted, started, nexts, ranged, finds;

/* Fills the tables; each is as long as the file, or at times one entry shorter or longer. */
static int32_t count(const uint8_t *file, size_t len, uint64_t **counts, size_t *counts_len)
{
    static const int results[] = { FST_OK, FST_ERR_SHORT, FST_ERR_VERSION, FST_ERR_ROOT, FST_ERR_NODE, FST_ERR_DEEP, FST_ERR_SUM,
        FST_ERR_SPACE, FST_ERR_COUNT, 100 };
    size_t lens[3], i;
    uint16_t *depths;
    uint64_t *sums;
    int32_t result;
    for (i = 0; i < 3; i++)
        lens[i] = one_in(30) ? (one_in(2) || len == 0 ? len + 1 : len - 1) : len;
    depths = lent(depths_at, lens[0] * sizeof *depths);
    sums = lent(sums_at, lens[1] * sizeof *sums);
    *counts = lent(counts_at, lens[2] * sizeof **counts);
    *counts_len = lens[2];
    memset(depths, 0xA5, lens[0] * sizeof *depths);
    memset(sums, 0xA5, lens[1] * sizeof *sums);
    memset(*counts, 0xA5, lens[2] * sizeof **counts);
    counted++;
    result = fst_count(file, len, depths, lens[0], sums, lens[1], *counts, lens[2]);
    expect(among(result, results), "fst_count answers another number");
    if (result != FST_OK && result != FST_ERR_COUNT) {
        expect(filled((uint8_t *)*counts, lens[2] * sizeof **counts, 0xA5), "fst_count refuses, and the table of keys is written");
        if (result != FST_ERR_NODE && result != FST_ERR_DEEP && result != FST_ERR_SUM)
            expect(filled((uint8_t *)depths, lens[0] * sizeof *depths, 0xA5) && filled((uint8_t *)sums, lens[1] * sizeof *sums, 0xA5),
                   "fst_count refuses, and a work table is written");
    }
    return result;
}

static int32_t start(const uint8_t *file, size_t len, const fst_bound *lower, const fst_bound *upper, const uint64_t *counts, size_t counts_len,
                     fst_reading *reading)
{
    static const int results[] = { FST_OK, FST_ERR_SHORT, FST_ERR_VERSION, FST_ERR_ROOT, FST_ERR_BOUND, FST_ERR_SPACE, FST_ERR_NODE, FST_ERR_SUM,
        FST_ERR_COUNT, 100 };
    int32_t result;
    memset(reading, 0xA5, sizeof *reading);
    started++;
    result = fst_start(file, len, lower, upper, counts, counts_len, reading);
    expect(among(result, results), "fst_start answers another number");
    expect(result == FST_OK || filled((uint8_t *)reading, sizeof *reading, 0xA5), "fst_start refuses, and the reading is written");
    return result;
}

static int32_t next(const uint8_t *file, size_t len, fst_reading *reading, uint8_t *key, size_t space, size_t *key_len, uint64_t *value)
{
    static const int results[] = { FST_OK, FST_END, FST_ERR_SHORT, FST_ERR_VERSION, FST_ERR_ROOT, FST_ERR_STATE, FST_ERR_SPACE, FST_ERR_NODE,
        FST_ERR_DEEP, FST_ERR_SUM, 100 };
    uint64_t to_come = fst_to_come(reading);
    int32_t result;
    memset(key, 0xA5, space);
    *key_len = 777;
    *value = 777;
    nexts++;
    result = fst_next(file, len, reading, key, space, key_len, value);
    expect(among(result, results), "fst_next answers another number");
    if (result == FST_OK)
        expect(*key_len <= 255 && filled(key + *key_len, space - *key_len, 0xA5) && fst_to_come(reading) + 1 == to_come, "fst_next hands out a key wrongly");
    else
        expect(*key_len == 777 && *value == 777 && filled(key, space, 0xA5) && fst_to_come(reading) == to_come,
               "fst_next hands out no key, and something is written");
    return result;
}

#define ROWS ((size_t)12)
#define POSITIONS ((size_t)260)

typedef struct pattern {
    uint16_t *positions;
    size_t len;
    int rest;
} pattern;

/* A pattern: any bytes, and bytes like those of keys; at times over 255. */
static void any_pattern(pattern *p)
{
    static const char likely[] = "abcdefghijklmnopqrstuvwxyz0123456789at";
    p->len = one_in(50) ? 250 + below(8) : below(5);
    p->rest = one_in(2) ? 0 : (int)below(3);
    p->positions = lent(positions_at, p->len * sizeof *p->positions);
    for (size_t i = 0; i < p->len; i++)
        p->positions[i] = one_in(2) ? (uint16_t)(256 + below(65536 - 256)) : one_in(4) ? (uint8_t)any() : (uint8_t)likely[below(sizeof likely - 1)];
}

static int fits(const pattern *p, const uint8_t *key, size_t len)
{
    if (p == NULL)
        return 1;
    if (p->rest ? len < p->len : len != p->len)
        return 0;
    for (size_t i = 0; i < p->len; i++) {
        if (p->positions[i] < 256 && p->positions[i] != key[i])
            return 0;
    }
    return 1;
}

/* One page, of the keys that fit the pattern, if there is one; what is not handed out stays as it was. */
static int32_t range(const uint8_t *file, size_t len, const pattern *p, const fst_bound *lower, const fst_bound *upper, size_t most, fst_row **rows,
                     uint64_t **values, size_t *count)
{
    /* the last but one only by pattern */
    static const int results[] = { FST_END, FST_MORE, FST_ERR_SHORT, FST_ERR_VERSION, FST_ERR_ROOT, FST_ERR_BOUND, FST_ERR_NODE, FST_ERR_DEEP,
        FST_ERR_SUM, FST_ERR_PATTERN, 100 };
    int32_t result;
    *rows = lent(rows_at, most * sizeof **rows);
    *values = lent(page_values_at, most * sizeof **values);
    memset(*rows, 0xA5, most * sizeof **rows);
    memset(*values, 0xA5, most * sizeof **values);
    if (p == NULL) {
        ranged++;
        result = fst_range(file, len, lower, upper, most, *rows, *values, count);
    } else {
        finds++;
        result = fst_find(file, len, p->positions, p->len, p->rest, lower, upper, most, *rows, *values, count);
        expect((result == FST_ERR_PATTERN) <= (p->len > 255), "fst_find refuses a pattern of 255 positions");
    }
    expect(among(result, results) && (p != NULL || result != FST_ERR_PATTERN), "a page answers another number");
    expect(*count <= most && (result != FST_MORE || *count == most) && (result != FST_END || *count < most), "a page hands out too many, or ends early");
    for (size_t i = 0; i < *count; i++) {
        expect(fits(p, (*rows)[i].key, (*rows)[i].len), "fst_find hands out a key that does not fit");
        expect(filled((*rows)[i].key + (*rows)[i].len, 255 - (size_t)(*rows)[i].len, 0xA5), "a page is written behind a key");
    }
    expect(filled((uint8_t *)(*rows + *count), (most - *count) * sizeof **rows, 0xA5) &&
           filled((uint8_t *)(*values + *count), (most - *count) * sizeof **values, 0xA5), "a page is written behind the last row");
    return result;
}

/* The next key of a reading that fits. */
static int32_t next_fit(const uint8_t *file, size_t len, const pattern *p, fst_reading *reading, uint8_t *key, size_t *key_len, uint64_t *value)
{
    int32_t result = fst_next(file, len, reading, key, 255, key_len, value);
    while (result == FST_OK && !fits(p, key, *key_len))
        result = fst_next(file, len, reading, key, 255, key_len, value);
    return result;
}

/* Pages of any size between the bounds, beside the reading of the same bounds: the same keys that fit, and values, until either is refused. */
static void page_on(const uint8_t *file, size_t len, const pattern *p, const fst_bound *lower, const fst_bound *upper, fst_reading reading)
{
    fst_bound from = lower == NULL ? (fst_bound){ FST_UNBOUNDED, NULL, 0 } : *lower;
    uint8_t key[255], last[255];
    size_t key_len, count, pages = 0;
    uint64_t value;
    fst_row *rows;
    uint64_t *values;
    int32_t result = FST_MORE;
    while (result == FST_MORE && pages++ < 6) {
        result = range(file, len, p, &from, upper, 1 + below(ROWS), &rows, &values, &count);
        for (size_t i = 0; i < count; i++) {
            if (next_fit(file, len, p, &reading, key, &key_len, &value) != FST_OK) {
                expect(0, "a page hands out a key that the reading does not");
                return;
            }
            expect(key_len == rows[i].len && memcmp(key, rows[i].key, key_len) == 0 && value == values[i], "a page hands out another key than the reading");
        }
        if (count > 0) {
            memcpy(last, rows[count - 1].key, rows[count - 1].len);
            from = (fst_bound){ FST_EXCLUDED, last, rows[count - 1].len };
        }
    }
    if (result == FST_END)
        expect(next_fit(file, len, p, &reading, key, &key_len, &value) == FST_END, "pages end before the reading");
}

/* A reading to its end, or so many keys; right says that the file is admitted and the table its own. */
static void read_on(const uint8_t *file, size_t len, fst_reading *reading, int right)
{
    uint8_t last[255];
    size_t last_len = 0, n = 0, space = one_in(30) ? below(256) : 255 + below(4), *key_len = lent(lens_at, sizeof *key_len);
    uint8_t *key = lent(keys_at, space);
    uint64_t *value = lent(values_at, sizeof *value), looked_up, to_come = fst_to_come(reading);
    int32_t result = FST_OK;
    for (; n < 40 && result == FST_OK; n++) {
        result = next(file, len, reading, key, space, key_len, value);
        if (right && result == FST_OK) {
            size_t shorter = last_len < *key_len ? last_len : *key_len;
            int order = memcmp(last, key, shorter);
            expect(n == 0 || order < 0 || (order == 0 && last_len < *key_len), "keys do not ascend");
            expect(fst_get(file, len, key, *key_len, &looked_up) == FST_OK && looked_up == *value, "a key has another value than fst_get answers");
            memcpy(last, key, *key_len);
            last_len = *key_len;
        }
    }
    if (right && space >= 255)
        expect(result == FST_END ? n - 1 == to_come : n <= to_come, "keys do not come as often as the number says");
    /* the same reading with another file */
    file = damaged(&len);
    next(file, len, reading, key, space, key_len, value);
}

int main(int argc, char **argv)
{
    unsigned long calls = argc > 1 ? strtoul(argv[1], NULL, 10) : 0, files_made = 0, admitted = 0;
    load_all(argc, argv);
    if (base_count == 0 || calls == 0) {
        fprintf(stderr, "usage: damage CALLS FILE...\n");
        return 2;
    }
    files = map(LONGEST);
    depths_at = map(TABLE * sizeof(uint16_t));
    sums_at = map(TABLE * sizeof(uint64_t));
    counts_at = map(TABLE * sizeof(uint64_t));
    readings_at = map(sizeof(fst_reading));
    keys_at = map(300);
    lens_at = map(sizeof(size_t));
    values_at = map(sizeof(uint64_t));
    lowers_at = map(300);
    uppers_at = map(300);
    rows_at = map(ROWS * sizeof(fst_row));
    page_values_at = map(ROWS * sizeof(uint64_t));
    positions_at = map(POSITIONS * sizeof(uint16_t));
    while (counted < calls || started < calls || nexts < calls || ranged < calls || finds < calls) {
        fst_reading *reading = lent(readings_at, sizeof *reading);
        uint64_t *counts;
        size_t len, counts_len;
        uint8_t *file = damaged(&len);
        int32_t result = count(file, len, &counts, &counts_len);
        int right = result == FST_OK;
        files_made++;
        admitted += right;
        for (int i = 0; i < 2; i++) {
            fst_bound lower, upper;
            const fst_bound *lo = bound(lowers_at, &lower), *hi = bound(uppers_at, &upper);
            /* the file's own table, until another is put in its place */
            right = right && !one_in(8);
            if (!right) {
                for (size_t j = 0; j < counts_len; j++)
                    counts[j] = one_in(16) ? any() : below(1000);
            }
            fst_row *rows;
            uint64_t *values;
            size_t found;
            pattern p;
            any_pattern(&p);
            range(file, len, NULL, lo, hi, below(ROWS + 1), &rows, &values, &found);
            range(file, len, &p, lo, hi, below(ROWS + 1), &rows, &values, &found);
            if (start(file, len, lo, hi, counts, counts_len, reading) == FST_OK) {
                if (right) {
                    page_on(file, len, NULL, lo, hi, *reading);
                    page_on(file, len, &p, lo, hi, *reading);
                }
                read_on(file, len, reading, right);
                break; /* the file was exchanged */
            }
        }
        file = damaged(&len);
        make_reading(len, reading);
        read_on(file, len, reading, 0);
    }
    printf("%lu damaged files, %lu of them admitted: fst_count %lu calls, fst_start %lu, fst_next %lu, fst_range %lu, fst_find %lu, %lu differences\n",
           files_made, admitted, counted, started, nexts, ranged, finds, differences);
    free_all();
    return differences > 0;
}
