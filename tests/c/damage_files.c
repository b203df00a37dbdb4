/* Calls the functions that write files or carry a reading to one on damaged files, lists and readings, each so many times (tests/c/README.md):
 *
 *     damage_files CALLS FILE...
 *
 * Every buffer that is lent ends at a page without access, and files and lists may only be read: a step beyond a buffer, or a byte written to a file,
 * ends the program. Of each call is checked that its result is one that the header names, and that what is to stay stayed. What was written is admitted:
 * a converted file hands out the keys and values of the old one, a packed file those of its list, and a reading carried to a converted file goes on as it
 * would have gone on in the old one. */
#include "guarded.h"

/* A converted file is longer by the indexes of its wide nodes, 256 bytes each; where there are too many, FST_ERR_SPACE comes. */
#define OUTPUT (3 * LONGEST)
#define LIST (8 + 12 * KEYS + KEYS * 20 + 300)
#define KEYS ((size_t)24)
#define CELLS ((size_t)64)
#define PAIRS ((size_t)40)

static region news, depths_at, sums_at, depths_again, sums_again, counts_at, out_at, table_at, len_at, readings_at, lists_at, cells_at, inputs_at, leasts_at,
    targets_at, lowers_at, uppers_at;

static unsigned long converted, written, packed, taken, carried, went_on;

/* As long as is asked, or at times one entry shorter or longer. */
static size_t about(size_t n)
{
    return one_in(30) ? (one_in(2) || n == 0 ? n + 1 : n - 1) : n;
}

static void *marked(region at, size_t bytes)
{
    return memset(lent(at, bytes), MARK, bytes);
}

static size_t first_older;

/* Of each file that was loaded a copy of version 1 too. Where no node has an index, it is as sound as the file. */
static void load_older(void)
{
    size_t n = base_count;
    first_older = n;
    for (size_t i = 0; i < n; i++) {
        size_t len = base_lens[i];
        if (len < 36 || bases[i][0] == 1)
            continue;
        len -= bases[i][0] == 3 ? 4 : 0;
        bases[base_count] = malloc(len);
        memcpy(bases[base_count], bases[i], len);
        bases[base_count][0] = 1;
        base_lens[base_count++] = len;
    }
}

/* ---- conversion */

/* Both files hand out the same keys and values, up to PAIRS of them. */
static void same_pairs(const uint8_t *file, size_t len, const uint8_t *new_file, size_t new_len)
{
    static fst_row rows[PAIRS], new_rows[PAIRS];
    uint64_t values[PAIRS], new_values[PAIRS];
    size_t count, new_count;
    int32_t result = fst_range(file, len, NULL, NULL, PAIRS, rows, values, &count);
    expect(result == FST_END || result == FST_MORE, "a converted file was not readable");
    expect(fst_range(new_file, new_len, NULL, NULL, PAIRS, new_rows, new_values, &new_count) == result && count == new_count,
           "a converted file hands out more or fewer keys");
    for (size_t i = 0; i < count && i < new_count; i++)
        expect(rows[i].len == new_rows[i].len && memcmp(rows[i].key, new_rows[i].key, rows[i].len) == 0 && values[i] == new_values[i],
               "a converted file hands out another key or value");
}

/* The new file's length, or 0. */
static size_t convert(const uint8_t *file, size_t len, uint8_t **out)
{
    static const int results[] = { FST_OK, FST_ERR_SHORT, FST_ERR_VERSION, FST_ERR_ROOT, FST_ERR_NODE, FST_ERR_DEEP, FST_ERR_SUM, FST_ERR_SPACE,
        FST_ERR_EDITION, 100 };
    size_t depths_len = about(len), sums_len = about(len), table_len = about(len);
    size_t out_len = one_in(10) ? below(len + 40) : OUTPUT;
    uint16_t *depths = marked(depths_at, depths_len * sizeof *depths), *depths_want = marked(depths_again, depths_len * sizeof *depths);
    uint64_t *sums = marked(sums_at, sums_len * sizeof *sums), *sums_want = marked(sums_again, sums_len * sizeof *sums);
    uint32_t *table = marked(table_at, table_len * sizeof *table);
    size_t *new_len = marked(len_at, sizeof *new_len), n;
    int32_t result, admits;
    *out = marked(out_at, out_len);
    converted++;
    result = fst_convert(file, len, depths, depths_len, sums, sums_len, *out, out_len, table, table_len, new_len);
    expect(among(result, results), "fst_convert answers another number");
    admits = fst_admit(file, len, depths_want, depths_len, sums_want, sums_len);
    expect(memcmp(depths, depths_want, depths_len * sizeof *depths) == 0 && memcmp(sums, sums_want, sums_len * sizeof *sums) == 0,
           "fst_convert leaves the work tables otherwise than fst_admit");
    expect(admits == FST_OK || result == admits, "fst_convert refuses otherwise than fst_admit");
    n = *new_len;
    if (result != FST_OK) {
        expect(filled(*out, out_len, MARK) && filled((uint8_t *)table, table_len * sizeof *table, MARK) && filled((uint8_t *)new_len, sizeof n, MARK),
               "fst_convert refuses, and something is written");
        return 0;
    }
    written++;
    expect(n <= out_len && filled(*out + n, out_len - n, MARK) && filled((uint8_t *)(table + len), (table_len - len) * sizeof *table, MARK),
           "fst_convert writes behind the new file or behind the table");
    for (size_t i = 0; i < len; i++)
        expect(table[i] < n, "an entry of the table lies beyond the new file");
    same_pairs(file, len, *out, n);
    return n;
}

/* ---- carrying */

static int32_t carry(const uint8_t *old_file, size_t old_len, const uint8_t *new_file, size_t new_len, fst_reading *reading)
{
    static const int results[] = { FST_OK, FST_ERR_SHORT, FST_ERR_VERSION, FST_ERR_ROOT, FST_ERR_STATE, FST_ERR_NODE, FST_ERR_CARRY, 100 };
    fst_reading was = *reading;
    int32_t result;
    carried++;
    result = fst_carry(old_file, old_len, new_file, new_len, reading);
    expect(among(result, results), "fst_carry answers another number");
    if (result != FST_OK)
        expect(memcmp(reading, &was, sizeof was) == 0, "fst_carry refuses, and the reading is another");
    else
        expect(reading->head[0] == new_len && reading->head[5] == was.head[5] && reading->head[6] == was.head[6] && fst_to_come(reading) == fst_to_come(&was),
               "a carried reading has another length, total, number of levels or of keys");
    return result;
}

/* A reading of the old file after some calls, carried to what the file was converted to: from there both hand out the same. */
static void carry_on(const uint8_t *file, size_t len, const uint8_t *out, size_t out_len)
{
    uint64_t *counts = lent(counts_at, len * sizeof *counts), value, new_value;
    uint16_t *depths = lent(depths_at, len * sizeof *depths);
    uint64_t *sums = lent(sums_at, len * sizeof *sums);
    fst_reading *reading = lent(readings_at, sizeof *reading), stays, given;
    uint8_t key[255], new_key[255], *new_file;
    size_t key_len, new_key_len, new_len;
    fst_bound lower, upper;
    int32_t result, new_result;
    if (fst_count(file, len, depths, len, sums, len, counts, len) != FST_OK ||
        fst_start(file, len, bound(lowers_at, &lower), bound(uppers_at, &upper), counts, len, reading) != FST_OK)
        return;
    for (size_t i = below(6); i > 0; i--)
        fst_next(file, len, reading, key, sizeof key, &key_len, &value);
    stays = given = *reading;
    expect(carry(file, len, out, out_len, reading) == FST_OK, "a reading is not carried to the converted file");
    for (size_t i = 0; i < 6; i++) {
        result = fst_next(file, len, &stays, key, sizeof key, &key_len, &value);
        new_result = fst_next(out, out_len, reading, new_key, sizeof new_key, &new_key_len, &new_value);
        expect(result == new_result, "a carried reading ends elsewhere");
        if (result != FST_OK || new_result != FST_OK)
            break;
        went_on++;
        expect(key_len == new_key_len && memcmp(key, new_key, key_len) == 0 && value == new_value && fst_to_come(&stays) == fst_to_come(reading),
               "a carried reading hands out another key");
    }
    /* to damaged copies of the new file, and back from one */
    for (size_t i = 0; i < 3; i++) {
        new_file = damaged_copy(news, out, out_len, &new_len);
        *reading = given;
        if (carry(file, len, new_file, new_len, reading) == FST_OK) {
            fst_next(new_file, new_len, reading, new_key, sizeof new_key, &new_key_len, &new_value);
            carry(new_file, new_len, file, len, reading);
        }
    }
}

/* From a reading that no start gave, between two damaged files. */
static void carry_made(void)
{
    fst_reading *reading = lent(readings_at, sizeof *reading);
    size_t len, new_len, base = below(base_count);
    uint8_t *file = damaged(&len), *new_file = damaged_copy(news, bases[base], base_lens[base], &new_len), key[255];
    size_t key_len;
    uint64_t value;
    make_reading(len, reading);
    if (one_in(2)) {
        /* at its first level alone, so that more is judged than a wrong address */
        reading->head[6] = one_in(2);
        reading->addrs[0] = (uint32_t)(len > 17 ? len - 17 : 0);
        reading->outs[0] = 0;
    }
    if (one_in(4)) {
        new_file = file;
        new_len = len;
    }
    if (carry(file, len, new_file, new_len, reading) == FST_OK)
        fst_next(new_file, new_len, reading, key, sizeof key, &key_len, &value);
}

/* ---- packing */

static void put(uint8_t *at, uint64_t number, int size)
{
    for (int i = 0; i < size; i++)
        at[i] = (uint8_t)(number >> (8 * i));
}

static uint64_t get(const uint8_t *at, int size)
{
    uint64_t number = 0;
    for (int i = size - 1; i >= 0; i--)
        number = number << 8 | at[i];
    return number;
}

/* A list of ascending keys of few letters, some with a long one at the end; then a copy that may be damaged. */
static uint8_t *make_list(size_t *len)
{
    static uint8_t list[LIST];
    uint8_t keys[KEYS][256], key[256];
    size_t lens[KEYS], n = below(KEYS + 1), total = 0, end = 0;
    for (size_t i = 0; i < n; i++) {
        size_t at = i, key_len = i + 1 == n && one_in(6) ? 250 + below(7) : below(20);
        for (size_t j = 0; j < key_len; j++)
            key[j] = (uint8_t)(key_len > 20 ? 'z' : 'a' + below(3));
        /* in its place among those before it; one that stands there already is put behind it, and then stands twice */
        while (at > 0 && (memcmp(keys[at - 1], key, lens[at - 1] < key_len ? lens[at - 1] : key_len) > 0 ||
                          (memcmp(keys[at - 1], key, lens[at - 1] < key_len ? lens[at - 1] : key_len) == 0 && lens[at - 1] > key_len))) {
            memcpy(keys[at], keys[at - 1], sizeof key);
            lens[at] = lens[at - 1];
            at--;
        }
        if (at > 0 && lens[at - 1] == key_len && memcmp(keys[at - 1], key, key_len) == 0 && key_len < 255 && !one_in(20))
            key[key_len++] = '~';
        memcpy(keys[at], key, sizeof key);
        lens[at] = key_len;
        total += key_len;
    }
    put(list, n, 4);
    put(list + 4, total, 4);
    for (size_t i = 0; i < n; i++) {
        memcpy(list + 8 + 12 * n + end, keys[i], lens[i]);
        end += lens[i];
        put(list + 8 + 4 * i, end, 4);
        put(list + 8 + 4 * n + 8 * i, one_in(4) ? any() : below(5), 8);
    }
    *len = FST_LIST_LEN(n, total);
    if (one_in(2))
        return damaged_copy(lists_at, list, *len, len);
    writable(lists_at, 1);
    memcpy(lent(lists_at, *len), list, *len);
    writable(lists_at, 0);
    return lent(lists_at, *len);
}

/* The file holds as many keys as the list, and each key of the list with its value. */
static void holds(const uint8_t *list, const uint8_t *file, size_t len)
{
    size_t n = (size_t)get(list, 4), begin = 0;
    uint16_t *depths = lent(depths_at, len * sizeof *depths);
    uint64_t *sums = lent(sums_at, len * sizeof *sums), *counts = lent(counts_at, len * sizeof *counts), value;
    fst_reading *reading = lent(readings_at, sizeof *reading);
    expect(fst_count(file, len, depths, len, sums, len, counts, len) == FST_OK, "a packed file is not admitted");
    expect(fst_start(file, len, NULL, NULL, counts, len, reading) == FST_OK && fst_to_come(reading) == n, "a packed file holds more or fewer keys");
    for (size_t i = 0; i < n; i++) {
        size_t end = (size_t)get(list + 8 + 4 * i, 4);
        expect(fst_get(file, len, list + 8 + 12 * n + begin, end - begin, &value) == FST_OK && value == get(list + 8 + 4 * n + 8 * i, 8),
               "a packed file has another value");
        begin = end;
    }
}

static void pack(void)
{
    static const int results[] = { FST_OK, FST_ERR_LIST, FST_ERR_SPACE, 100 };
    static const uint8_t zeros[(FST_PACK_TABLE + 1) * sizeof(uint64_t)];
    const size_t t = FST_PACK_TABLE;
    size_t len, inputs_len = about(t), leasts_len = about(t), targets_len = about(t), cells_len = one_in(20) ? below(3) : 2 + below(CELLS - 1);
    size_t out_len = one_in(10) ? below(100) : one_in(10) ? 0 : LONGEST;
    uint8_t *list = make_list(&len), *out = marked(out_at, out_len), *inputs = marked(inputs_at, inputs_len);
    uint64_t *leasts = marked(leasts_at, leasts_len * sizeof *leasts);
    size_t *targets = marked(targets_at, targets_len * sizeof *targets), *new_len = marked(len_at, sizeof *new_len);
    fst_cell *cells = marked(cells_at, cells_len * sizeof *cells);
    int32_t result;
    packed++;
    result = fst_pack(list, len, out, out_len, cells, cells_len, inputs, inputs_len, leasts, leasts_len, targets, targets_len, new_len);
    expect(among(result, results), "fst_pack answers another number");
    expect(memcmp(inputs, zeros, inputs_len) == 0 && memcmp(leasts, zeros, leasts_len * sizeof *leasts) == 0 &&
           memcmp(targets, zeros, targets_len * sizeof *targets) == 0, "fst_pack leaves a working table that is not zeros");
    if (result == FST_OK) {
        taken++;
        expect(*new_len <= out_len && filled(out + *new_len, out_len - *new_len, 0), "fst_pack leaves bytes behind the file");
        holds(list, out, *new_len);
        return;
    }
    expect(filled((uint8_t *)new_len, sizeof *new_len, MARK) && filled(out, out_len, 0), "fst_pack refuses, and the output is not zeros");
    for (size_t i = 0; i < cells_len; i++)
        expect(cells[i].address == 1 && cells[i].hash == 0, "fst_pack refuses, and a cell is not empty");
}

int main(int argc, char **argv)
{
    unsigned long calls = argc > 1 ? strtoul(argv[1], NULL, 10) : 0;
    load_all(argc, argv);
    load_older();
    if (base_count == first_older || calls == 0) {
        fprintf(stderr, "usage: damage_files CALLS FILE...\n");
        return 2;
    }
    files = map(LONGEST);
    news = map(OUTPUT);
    depths_at = map(OUTPUT * sizeof(uint16_t));
    sums_at = map(OUTPUT * sizeof(uint64_t));
    depths_again = map(TABLE * sizeof(uint16_t));
    sums_again = map(TABLE * sizeof(uint64_t));
    counts_at = map(OUTPUT * sizeof(uint64_t));
    out_at = map(OUTPUT);
    table_at = map(TABLE * sizeof(uint32_t));
    len_at = map(sizeof(size_t));
    readings_at = map(sizeof(fst_reading));
    lists_at = map(LIST);
    cells_at = map((CELLS + 1) * sizeof(fst_cell));
    inputs_at = map(FST_PACK_TABLE + 1);
    leasts_at = map((FST_PACK_TABLE + 1) * sizeof(uint64_t));
    targets_at = map((FST_PACK_TABLE + 1) * sizeof(size_t));
    lowers_at = map(300);
    uppers_at = map(300);
    while (converted < calls || packed < calls || carried < calls) {
        if (converted < calls || carried < calls) {
            size_t base = one_in(3) ? below(base_count) : first_older + below(base_count - first_older), len, new_len;
            uint8_t *file = damaged_copy(files, bases[base], base_lens[base], &len), *out;
            new_len = convert(file, len, &out);
            if (new_len > 0)
                carry_on(file, len, out, new_len);
            carry_made();
        }
        if (packed < calls)
            pack();
    }
    printf("fst_convert %lu calls, %lu of them converted; fst_pack %lu, %lu packed; fst_carry %lu, %lu keys after it, %lu differences\n", converted, written,
           packed, taken, carried, went_on, differences);
    free_all();
    return differences > 0;
}
