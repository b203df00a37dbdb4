/* baxhiso.h: read values by key, keys by value, and the keys between two bounds, by pattern too, from an FST file that is held in memory.
 *
 * Link libbaxhiso.a into a program for x86-64: `./install PREFIX` puts it and this header there, or `tools/library.sh` writes
 * target/staticlib/libbaxhiso.a. It calls memcpy and memset and nothing else.
 *
 * The library allocates nothing and keeps nothing between calls: any number of threads may call it at the same time, also on one file, as long
 * as none is lent a buffer that another is lent. The caller lends every buffer, and the library reads and
 * writes only within the lengths it is given: a pointer's length is the argument after it, counted in elements. A pointer
 * whose length is 0 may be NULL; any other must be valid, and aligned for its type. What is only read, as a file and a key,
 * may overlap; what is written must not overlap another argument. A file may stand at any address, and no function changes
 * it. Every file may be handed in, admitted or not, damaged or not.
 *
 * Each function of the library is proved to return on every input, with the result and with what each buffer holds afterwards as said
 * below (crates/baxhiso/specs/Exports.antt, crates/baxhiso_readings/specs/Readings.antt, crates/baxhiso_files/specs/Files.antt,
 * crates/baxhiso_pack/specs/PackFiles.antt, crates/baxhiso_carry/specs/CarryArrays.antt, crates/baxhiso_find/specs,
 * crates/baxhiso_seats/specs/Seats.antt, crates/baxhiso_ops/specs/Items.antt, with the definitions of docs/FORMAT.md).
 * Only tested, by tests/c: that these declarations fit the library, the functions that are defined here, and NULL with length 0. The stack is not part
 * of the proof: no function calls itself, and FST_STACK_OPEN and those after it say what was measured.
 *
 * Tables, lent by the caller: admission takes 10 bytes for each byte of the file, the table of keys 8 more. fst_get, fst_get_key, fst_range, fst_find and
 * fst_items take none, fst_start the table of keys. Work of a call: fst_open looks at no node, fst_get at one more than the key has bytes at most, fst_get_key
 * at 256, fst_next at 511 (the levels it comes up by and those it goes down by), fst_start at 256 a bound, fst_range
 * at 256 for the lower bound and at 511 for each key and once more, fst_items the same in each file, and there for the keys too that do not belong to the
 * operation, however many they are; fst_admit and fst_count pass over all nodes a fixed number of times. fst_find has no such
 * bound: on an admitted file a page looks at three nodes at most for each string that begins a held key, lies between the bounds and, less its last byte, fits
 * the pattern's start, and at 520 more.
 *
 * Admit a file when it is loaded, with two lent tables of an entry for each byte; then each answer by key, and each range, is exact:
 *
 *     static uint16_t depths[CARD_MAX];
 *     static uint64_t sums[CARD_MAX];
 *     uint64_t value;
 *     if (fst_admit(file, file_len, depths, CARD_MAX, sums, CARD_MAX) != FST_OK)
 *         return reject_card();
 *     ...
 *     switch (fst_get(file, file_len, key, key_len, &value)) {
 *     case FST_OK:   show(value);   break;
 *     case FST_NONE: show_absent(); break;
 *     default:       reject_card(); break;
 *     }
 *
 * Licence: see NOTICE.
 */
#ifndef BAXHISO_H
#define BAXHISO_H

#include <stddef.h>
#include <stdint.h>

#ifdef __cplusplus
extern "C" {
#endif

/* The version of this header and its library: MAJOR moves when a program that uses them has to change. */
#define BAXHISO_VERSION_MAJOR 1
#define BAXHISO_VERSION_MINOR 0
#define BAXHISO_VERSION_PATCH 0
#define BAXHISO_VERSION       "1.0.0"

/* Results. Negative: an answer that is no error. Positive: a refusal, numbered and named as in docs/FORMAT.md, "Refusals". The
 * functions below answer 1 to 9, 11 to 16, 19 and 20; the other numbers belong to functions that are not exported. */
#define FST_OK            0
#define FST_NONE        (-1) /* no such key or value                                                                    */
#define FST_END         (-2) /* no more keys                                                                            */
#define FST_MORE        (-3) /* as many keys as were asked for; there may be more                                       */
#define FST_ERR_SHORT     1  /* file of 1 to 31 bytes, or under 36 in version 3                                         */
#define FST_ERR_VERSION   2  /* version not 1, 2 or 3                                                                   */
#define FST_ERR_ROOT      3  /* root address does not fit the version and the file's length                             */
#define FST_ERR_LARGE     4  /* file over FST_MAX_LEN bytes                                                             */
#define FST_ERR_NODE      5  /* a node that is not sound; on admission also a broken chain, or a target that is no node */
#define FST_ERR_DEEP      6  /* a path or a key of 256 bytes                                                            */
#define FST_ERR_SUM       7  /* a sum passes 2^64 - 1                                                                   */
#define FST_ERR_SPACE     8  /* key buffer under FST_KEY_SPACE bytes, work table shorter than the file                  */
#define FST_ERR_BOUND     9  /* a bound over 255 bytes                                                                  */
#define FST_ERR_RECORD   10  /* a node to pack that breaks a rule                                                       */
#define FST_ERR_STATE    11  /* a reading out of its limits, or of a file of another length                             */
#define FST_ERR_PATTERN  12  /* a pattern of over 255 positions                                                         */
#define FST_ERR_LIST     13  /* a list of keys to pack that breaks a rule                                               */
#define FST_ERR_CARDS    14  /* no files to read as one, or over eight                                                  */
#define FST_ERR_EDITION  15  /* a file to convert that is not of version 1                                              */
#define FST_ERR_CARRY    16  /* a reading that does not go on in another file                                           */
#define FST_ERR_NAME     17  /* a mark's name of no bytes or over 8, or not marked                                      */
#define FST_ERR_FULL     18  /* a 17th mark                                                                             */
#define FST_ERR_COUNT    19  /* over 2^64 - 1 keys; at a start, a table of keys whose numbers do not go together        */
#define FST_ERR_SEAT     20  /* a seat over 7, or one without a reading                                                 */

/* A result's name, without FST_ or FST_ERR_: "OK", "NONE", "NODE". "UNKNOWN" where no result has the number. */
static inline const char *fst_result_name(int result)
{
    switch (result) {
    case FST_OK:          return "OK";
    case FST_NONE:        return "NONE";
    case FST_END:         return "END";
    case FST_MORE:        return "MORE";
    case FST_ERR_SHORT:   return "SHORT";
    case FST_ERR_VERSION: return "VERSION";
    case FST_ERR_ROOT:    return "ROOT";
    case FST_ERR_LARGE:   return "LARGE";
    case FST_ERR_NODE:    return "NODE";
    case FST_ERR_DEEP:    return "DEEP";
    case FST_ERR_SUM:     return "SUM";
    case FST_ERR_SPACE:   return "SPACE";
    case FST_ERR_BOUND:   return "BOUND";
    case FST_ERR_RECORD:  return "RECORD";
    case FST_ERR_STATE:   return "STATE";
    case FST_ERR_PATTERN: return "PATTERN";
    case FST_ERR_LIST:    return "LIST";
    case FST_ERR_CARDS:   return "CARDS";
    case FST_ERR_EDITION: return "EDITION";
    case FST_ERR_CARRY:   return "CARRY";
    case FST_ERR_NAME:    return "NAME";
    case FST_ERR_FULL:    return "FULL";
    case FST_ERR_COUNT:   return "COUNT";
    case FST_ERR_SEAT:    return "SEAT";
    default:              return "UNKNOWN";
    }
}

#define FST_MAX_LEN   UINT64_C(4294967295) /* the longest file                                 */
#define FST_KEY_SPACE 255                  /* the shortest key buffer, and the longest key in it */

/* The stack that a call takes, in bytes: measured on x86-64 (tests/c/stack.c), and rounded up. */
#define FST_STACK_OPEN     64
#define FST_STACK_GET      768
#define FST_STACK_GET_KEY  3840
#define FST_STACK_ADMIT    576
#define FST_STACK_COUNT    896
#define FST_STACK_START    12288
#define FST_STACK_NEXT     12288
#define FST_STACK_RANGE    6144
#define FST_STACK_FIND     36864
#define FST_STACK_CONVERT  8192
#define FST_STACK_PACK     8192
#define FST_STACK_CARRY    16384
#define FST_STACK_SEAT     4608 /* fst_clear_seats and fst_raise take less */
#define FST_STACK_DISPATCH 20480
#define FST_STACK_ITEMS    40960

/* What stands for the checksum of a file that has none: larger than any stored checksum. */
#define FST_NO_CHECKSUM UINT64_C(4294967296)

/* What the header and the trailer of a file say. Type, key count and checksum are read and not judged. */
typedef struct fst_meta {
    uint64_t version;  /* 1 to 3; 0 for a file of no bytes */
    uint64_t type;
    uint64_t keys;     /* key count */
    uint64_t root;     /* address of the root node */
    uint64_t checksum; /* at most 2^32 - 1, or FST_NO_CHECKSUM in versions 0, 1 and 2 */
} fst_meta;

/* Opens a file: reads its header and its trailer, and no node. A file of no bytes is a blank card: it opens with version, type,
 * key count and root 0 and no checksum, holds no key, and fst_admit admits it.
 *
 *   file, file_len   the whole file; file may be NULL where file_len is 0
 *   meta             all five numbers set on FST_OK, and left as they were on any other result
 *
 * Returns FST_OK, or the first that holds of FST_ERR_SHORT, FST_ERR_LARGE, FST_ERR_VERSION, FST_ERR_SHORT in version 3, FST_ERR_ROOT. The other
 * functions open the file themselves: there is no need to call this one before them. */
int32_t fst_open(const uint8_t *file, size_t file_len, fst_meta *meta);

/* The value of a key.
 *
 *   file, file_len   the whole file
 *   key, key_len     the key; any length, also 0
 *   value            set on FST_OK, and left as it was on any other result
 *
 * Returns FST_ERR_SHORT, FST_ERR_LARGE, FST_ERR_VERSION or FST_ERR_ROOT, as fst_open. Then FST_NONE if the file has no bytes. Then for each
 * node on the key's path, the last one included: FST_ERR_NODE if it is not sound, FST_ERR_SUM if the outputs up to it pass
 * 2^64 - 1, FST_NONE if the key does not go on
 * from it. At the key's end FST_NONE if the node is not final, FST_ERR_SUM if its final output is too much, else FST_OK.
 *
 * On a file that fst_admit admits, FST_OK comes exactly for the keys that the file holds, with their values, and FST_NONE for
 * all others: there is no refusal. */
int32_t fst_get(const uint8_t *file, size_t file_len, const uint8_t *key, size_t key_len, uint64_t *value);

/* A key with a value.
 *
 *   file, file_len   the whole file
 *   value            the value
 *   key, key_space   on FST_OK the key stands from key[0] on, and the bytes after it are left as they were; on any other
 *                    result all bytes are left as they were. At least FST_KEY_SPACE bytes
 *   key_len          the key's length, 0 to 255, on FST_OK; left as it was on any other result
 *
 * Returns FST_ERR_SHORT, FST_ERR_LARGE, FST_ERR_VERSION or FST_ERR_ROOT, as fst_open, then FST_ERR_SPACE, then FST_NONE if the file has no bytes.
 * Then for each node on the way: FST_ERR_NODE if it is not sound; FST_OK if nothing is left of the value and it is final;
 * FST_NONE if no transition fits what is
 * left; FST_ERR_DEEP if 255 bytes do not end the key. Final outputs are not counted.
 *
 * On a numbered file (crates/format/specs/Lookup.antt, Numbered), FST_OK comes exactly when a held key has the value, with
 * that key, and else FST_NONE. On any other admitted file the outputs on a found key's path add up to the value, and a key
 * that has it may be missed. */
int32_t fst_get_key(const uint8_t *file, size_t file_len, uint64_t value,
                    uint8_t *key, size_t key_space, size_t *key_len);

/* Judges a whole file: admits it or refuses it.
 *
 *   file, file_len       the whole file
 *   depths, depths_len   work table, at least file_len entries
 *   sums, sums_len       work table, at least file_len entries
 *
 * What both tables hold afterwards, by result:
 *   FST_OK                       at the address of each node that a path from the root reaches, depths has 1 plus its
 *                                longest path and sums its largest sum; 0 at the other entries below file_len
 *   FST_ERR_NODE, FST_ERR_DEEP, FST_ERR_SUM  0 at all entries below file_len
 *   any other                    what they held before
 * Entries from file_len on are left as they were on every result.
 *
 * Returns FST_ERR_SHORT, FST_ERR_LARGE, FST_ERR_VERSION or FST_ERR_ROOT, as fst_open, then FST_ERR_SPACE, then FST_ERR_NODE, decided over every node,
 * then FST_ERR_DEEP and FST_ERR_SUM, each decided over all nodes that a path from the root reaches, else FST_OK. */
int32_t fst_admit(const uint8_t *file, size_t file_len,
                  uint16_t *depths, size_t depths_len, uint64_t *sums, size_t sums_len);

/* ---- a range: the keys between two bounds, the least first, a page a call */

/* A bound: keys are compared byte by byte, a key before every longer one that it begins. */
typedef struct fst_bound {
    int kind;
    const uint8_t *key; /* may be NULL where len is 0 */
    size_t len;         /* at most 255 */
} fst_bound;

#define FST_INCLUDED  0 /* the key itself lies between the bounds    */
#define FST_EXCLUDED  1 /* it does not                               */
#define FST_UNBOUNDED 2 /* as any other number: key and len are not looked at */

/* A key as a range hands it out. */
typedef struct fst_row {
    uint8_t len;
    uint8_t key[255];
} fst_row;

/* What fst_range calls. */
int32_t fst_range_rows(const uint8_t *file, size_t file_len,
                       uint64_t lower_kind, const uint8_t *lower, size_t lower_len,
                       uint64_t upper_kind, const uint8_t *upper, size_t upper_len,
                       size_t most, uint8_t *rows, size_t rows_len, uint64_t *values, size_t values_len, size_t *count);

/* Up to so many keys between two bounds, the least first, each with its value.
 *
 *   file, file_len   the whole file
 *   lower, upper     the bounds; NULL is unbounded
 *   most             how many keys at most
 *   rows, values     at least so many of each; row i holds a key, and values[i] its value
 *   count            how many keys were found: 0 to most, on every result
 *
 * Of the first count rows the bytes after the key are left as they were; the other rows and values are left as they were.
 *
 * Returns FST_ERR_SHORT, FST_ERR_LARGE, FST_ERR_VERSION or FST_ERR_ROOT, as fst_open, then FST_ERR_BOUND, then FST_ERR_SPACE where
 * so many rows would pass the address space, then for each node on the lower bound's path FST_ERR_NODE, then FST_ERR_SUM; all with no key. Then FST_END where fewer keys are left than were asked for, and so
 * none is left; FST_MORE where there were as many; or FST_ERR_NODE, FST_ERR_DEEP or FST_ERR_SUM for what was met after count keys.
 *
 * On a file that fst_admit admits, FST_END or FST_MORE comes, unless a bound is too long: the rows are the first held keys between the
 * bounds. The next page is asked for with the last key as an excluded lower bound; page after page up to FST_END hands out exactly the held keys
 * between the bounds, once each, whatever most was in each call, if it was not 0. Nothing is kept between the calls. */
static inline int32_t fst_range(const uint8_t *file, size_t file_len, const fst_bound *lower, const fst_bound *upper,
                                size_t most, fst_row *rows, uint64_t *values, size_t *count)
{
    const fst_bound none = { FST_UNBOUNDED, NULL, 0 };
    const fst_bound lo = lower == NULL ? none : *lower;
    const fst_bound hi = upper == NULL ? none : *upper;
    return fst_range_rows(file, file_len, (uint64_t)lo.kind, lo.key, lo.len, (uint64_t)hi.kind, hi.key, hi.len,
                          most, (uint8_t *)rows, most * sizeof *rows, values, most, count);
}

/* ---- a page by pattern: the keys between two bounds that fit, the least first, a page a call */

/* A position of a pattern: below 256 its byte, any other number any byte. */
#define FST_ANY_BYTE 256

/* What fst_find calls. */
int32_t fst_find_rows(const uint8_t *file, size_t file_len, const uint16_t *positions, size_t positions_len, uint64_t rest,
                      uint64_t lower_kind, const uint8_t *lower, size_t lower_len,
                      uint64_t upper_kind, const uint8_t *upper, size_t upper_len,
                      size_t most, uint8_t *rows, size_t rows_len, uint64_t *values, size_t values_len, size_t *count);

/* Up to so many keys between two bounds that fit a pattern, the least first, each with its value.
 *
 *   file, file_len             the whole file
 *   positions, positions_len   a key fits where each of its first positions_len bytes is its position's byte, or the position is any byte; at
 *                              most 255; may be NULL where there is none
 *   rest                       0: the key has no more bytes; any other number: any rest may follow
 *   lower, upper, most, rows, values, count   as fst_range
 *
 * Of the first count rows the bytes after the key are left as they were; the other rows and values are left as they were.
 *
 * Returns FST_ERR_SHORT, FST_ERR_LARGE, FST_ERR_VERSION or FST_ERR_ROOT, as fst_open, then FST_ERR_PATTERN for over 255 positions, then as fst_range
 * from FST_ERR_BOUND on; FST_ERR_SUM with a final output comes only for a key that fits.
 *
 * On a file that fst_admit admits, FST_END or FST_MORE comes, unless the pattern or a bound is too long: the rows are the first held keys between the
 * bounds that fit. The next page is asked for with the last key as an excluded lower bound; page after page up to FST_END hands out exactly the held keys
 * between the bounds that fit, once each, whatever most was in each call, if it was not 0. Nothing is kept between the calls. */
static inline int32_t fst_find(const uint8_t *file, size_t file_len, const uint16_t *positions, size_t positions_len, int rest,
                               const fst_bound *lower, const fst_bound *upper, size_t most, fst_row *rows, uint64_t *values, size_t *count)
{
    const fst_bound none = { FST_UNBOUNDED, NULL, 0 };
    const fst_bound lo = lower == NULL ? none : *lower;
    const fst_bound hi = upper == NULL ? none : *upper;
    return fst_find_rows(file, file_len, positions, positions_len, rest != 0, (uint64_t)lo.kind, lo.key, lo.len, (uint64_t)hi.kind, hi.key, hi.len,
                         most, (uint8_t *)rows, most * sizeof *rows, values, most, count);
}

/* ---- readings: the keys between two bounds, the least first, one a call */

/* Admits a file and fills a third table, from which fst_start works out how many keys are to come.
 *
 *   file, file_len       the whole file
 *   depths, depths_len   work table, at least file_len entries
 *   sums, sums_len       work table, at least file_len entries
 *   counts, counts_len   the table of keys, at least file_len entries
 *
 * What depths and sums hold afterwards is said at fst_admit. What counts holds, by result:
 *   FST_OK          at the address of each node that a path from the root reaches, the number of keys from there; 0 at the other
 *                   entries below file_len
 *   FST_ERR_COUNT   0 at all entries below file_len; depths and sums are as on FST_OK then
 *   any other       what it held before
 * Entries from file_len on are left as they were on every result.
 *
 * Returns what fst_admit returns, FST_ERR_SPACE for a third table that is too short too; last FST_ERR_COUNT, where the file
 * holds more than 2^64 - 1 keys, else FST_OK. */
int32_t fst_count(const uint8_t *file, size_t file_len, uint16_t *depths, size_t depths_len,
                  uint64_t *sums, size_t sums_len, uint64_t *counts, size_t counts_len);

/* A reading between two calls. It holds no pointer, and may be copied: the copy goes on from the same key. A caller need not
 * look into it; whatever it holds, fst_next reads and writes within it alone.
 *
 * A mark, a place to come back to, is a copy that the caller keeps, under a name of its own if it likes: put back, it gives the
 * answers that followed it, with the transitions followed and the number of keys to come as they were there. */
typedef struct fst_reading {
    uint64_t head[7];   /* file length, upper bound's kind and length, pending empty key and its value, transitions followed, levels */
    uint64_t keys[1];   /* the number of keys to come */
    uint64_t outs[256]; /* a level's running sum, */
    uint32_t addrs[256]; /* node address, */
    uint16_t trans[256]; /* next transition */
    uint8_t inps[256];  /* and the byte that led there */
    uint8_t bound[255]; /* the upper bound */
} fst_reading;

/* What fst_start and fst_next call: each field of a reading is an argument. */
int32_t fst_start_arrays(const uint8_t *file, size_t file_len,
                         uint64_t lower_kind, const uint8_t *lower, size_t lower_len,
                         uint64_t upper_kind, const uint8_t *upper, size_t upper_len,
                         const uint64_t *counts, size_t counts_len,
                         uint64_t *head, uint8_t *bound, uint32_t *addrs, uint8_t *inps, uint16_t *trans, uint64_t *outs,
                         uint64_t *keys);
int32_t fst_next_arrays(const uint8_t *file, size_t file_len,
                        uint64_t *head, uint8_t *bound, uint32_t *addrs, uint8_t *inps, uint16_t *trans, uint64_t *outs,
                        uint64_t *keys, uint8_t *key, size_t key_space, size_t *key_len, uint64_t *value);

/* Starts a reading of the keys between two bounds.
 *
 *   file, file_len       the whole file
 *   lower, upper         the bounds; NULL is unbounded
 *   counts, counts_len   the table of keys as fst_count left it for this file, at least file_len entries; only read
 *   reading              holds the reading on FST_OK, and is left as it was on any other result
 *
 * Returns FST_ERR_SHORT, FST_ERR_LARGE, FST_ERR_VERSION or FST_ERR_ROOT, as fst_open, then FST_ERR_BOUND, then FST_ERR_SPACE for
 * the table. Then for each node on the lower bound's path, its last one included: FST_ERR_NODE, then FST_ERR_SUM. Unless the bounds
 * cross, FST_ERR_NODE for each node on the upper bound's path; then FST_ERR_COUNT for a table whose numbers pass 2^64 - 1 or do
 * not go together, else FST_OK.
 *
 * On a file for which fst_count answered FST_OK, with its table, only FST_ERR_BOUND and FST_ERR_SPACE can come beside FST_OK. */
static inline int32_t fst_start(const uint8_t *file, size_t file_len, const fst_bound *lower, const fst_bound *upper,
                                const uint64_t *counts, size_t counts_len, fst_reading *reading)
{
    const fst_bound none = { FST_UNBOUNDED, NULL, 0 };
    const fst_bound lo = lower == NULL ? none : *lower;
    const fst_bound hi = upper == NULL ? none : *upper;
    return fst_start_arrays(file, file_len, (uint64_t)lo.kind, lo.key, lo.len, (uint64_t)hi.kind, hi.key, hi.len, counts, counts_len,
                            reading->head, reading->bound, reading->addrs, reading->inps, reading->trans, reading->outs,
                            reading->keys);
}

/* The next key of a reading.
 *
 *   file, file_len   the file that the reading was started on
 *   reading          goes on to the key after; says what it said before on a refusal
 *   key, key_space   on FST_OK the key stands from key[0] on, and the bytes after it are left as they were; on any other result
 *                    all bytes are left as they were. At least FST_KEY_SPACE bytes
 *   key_len, value   the key's length, 0 to 255, and its value, on FST_OK; left as they were on any other result
 *
 * Returns FST_ERR_SHORT, FST_ERR_LARGE, FST_ERR_VERSION or FST_ERR_ROOT, as fst_open, then FST_ERR_STATE for a reading with over 256 levels,
 * a bound over 255 bytes or another file length, then FST_ERR_SPACE. Then FST_OK for a key, FST_END where there is none, or what is
 * met on the way to it: FST_ERR_NODE, FST_ERR_DEEP, FST_ERR_SUM; last FST_ERR_STATE for a key where none was to come.
 *
 * On a file for which fst_count answered FST_OK, with its table at the start: the calls hand out exactly the held keys between the
 * bounds, ascending, each with its value, and then FST_END for good; a call is refused only for a short key buffer or another file length,
 * and follows no more transitions than the longest held key has bytes. */
static inline int32_t fst_next(const uint8_t *file, size_t file_len, fst_reading *reading,
                               uint8_t *key, size_t key_space, size_t *key_len, uint64_t *value)
{
    return fst_next_arrays(file, file_len, reading->head, reading->bound, reading->addrs, reading->inps, reading->trans, reading->outs,
                           reading->keys, key, key_space, key_len, value);
}

/* The number of keys that calls of fst_next will still hand out. */
static inline uint64_t fst_to_come(const fst_reading *reading)
{
    return reading->keys[0];
}

/* ---- eight seats on one index: a reading each, served in turn */

#define FST_SEATS 8 /* seats 0 to 7 */

/* Eight seats between two calls. It holds no pointer, and may be copied. A caller need not look into it; whatever it holds, the functions of seats
 * read and write within it alone. */
typedef struct fst_seats {
    uint64_t heads[FST_SEATS][7]; /* the fields of fst_reading, a row for each seat */
    uint64_t keys[FST_SEATS];
    uint64_t outs[FST_SEATS][256];
    uint32_t addrs[FST_SEATS][256];
    uint16_t trans[FST_SEATS][256];
    uint8_t inps[FST_SEATS][256];
    uint8_t bounds[FST_SEATS][255];
    uint8_t taken[FST_SEATS];   /* not 0 where the seat has a reading */
    uint8_t waiting[FST_SEATS]; /* not 0 where the seat waits */
    size_t last;                /* the seat served last */
} fst_seats;

/* What the functions of seats call: each field is an argument. */
void fst_empty_seats(size_t *last, uint8_t *taken, uint8_t *waiting);
int32_t fst_seat_arrays(size_t last, uint8_t *taken, const uint8_t *waiting, uint64_t *heads, uint8_t *bounds, uint32_t *addrs, uint8_t *inps,
                        uint16_t *trans, uint64_t *outs, uint64_t *keys, size_t number, const uint64_t *head, const uint8_t *bound,
                        const uint32_t *addr, const uint8_t *inp, const uint16_t *tran, const uint64_t *out, uint64_t to_come);
int32_t fst_raise_arrays(size_t last, const uint8_t *taken, uint8_t *waiting, size_t number);
int32_t fst_dispatch_arrays(const uint8_t *file, size_t file_len, size_t *last, const uint8_t *taken, uint8_t *waiting, uint64_t *heads,
                            uint8_t *bounds, uint32_t *addrs, uint8_t *inps, uint16_t *trans, uint64_t *outs, uint64_t *keys,
                            uint8_t *key, size_t key_space, size_t *seat, size_t *key_len, uint64_t *value);

/* No seat has a reading and none waits; the first turn is seat 0's. To be called before the other functions of seats. */
static inline void fst_clear_seats(fst_seats *seats)
{
    fst_empty_seats(&seats->last, seats->taken, seats->waiting);
}

/* The seat holds a copy of this reading from now on, also where it held another; its request stays as it was.
 *
 *   number    the seat, 0 to 7
 *   reading   as fst_start or fst_next left it, or any other; only read
 *
 * Returns FST_ERR_SEAT for a number over 7, and for seats of which the one served last is over 7 or one waits without a reading; then nothing is
 * written. Else FST_OK. */
static inline int32_t fst_seat(fst_seats *seats, size_t number, const fst_reading *reading)
{
    return fst_seat_arrays(seats->last, seats->taken, seats->waiting, seats->heads[0], seats->bounds[0], seats->addrs[0], seats->inps[0],
                           seats->trans[0], seats->outs[0], seats->keys, number, reading->head, reading->bound, reading->addrs, reading->inps,
                           reading->trans, reading->outs, reading->keys[0]);
}

/* The seat waits from now on; raising again changes nothing.
 *
 * Returns FST_ERR_SEAT as fst_seat, and for a seat that has no reading; then nothing is written. Else FST_OK. */
static inline int32_t fst_raise(fst_seats *seats, size_t number)
{
    return fst_raise_arrays(seats->last, seats->taken, seats->waiting, number);
}

/* Serves one waiting seat with one call of its reading, as fst_next: the first that waits after the seat served last, around the eight. It waits no
 * more afterwards, and no other seat changes.
 *
 *   file, file_len   the file that the readings were started on
 *   seats            left as they were on FST_NONE and on a refusal
 *   key, key_space   on FST_OK the key stands from key[0] on, and the bytes after it are left as they were; on any other result
 *                    all bytes are left as they were. At least FST_KEY_SPACE bytes
 *   seat             which was served, on FST_OK and FST_END; left as it was on any other result
 *   key_len, value   the key's length, 0 to 255, and its value, on FST_OK; left as they were on any other result
 *
 * Returns FST_ERR_SEAT for seats of which the one served last is over 7 or one waits without a reading. Then FST_NONE where none waits: neither the
 * file nor the key buffer is judged. Then what fst_next returns for the reading of the seat whose turn it is: FST_OK, FST_END or a refusal.
 *
 * A waiting seat is served within eight dispatches that are not refused, whatever the others raise. A refused dispatch changes nothing, the turn
 * neither: a seat whose reading is refused again and again, one of another file say, keeps its turn and holds the others up. The remedy is to seat
 * another reading there. Which seat it is the refusal does not say: it is the first that waits after the seat served last.
 *
 * Two threads may not call the functions of seats on one fst_seats at the same time. */
static inline int32_t fst_dispatch(const uint8_t *file, size_t file_len, fst_seats *seats, uint8_t *key, size_t key_space,
                                   size_t *seat, size_t *key_len, uint64_t *value)
{
    return fst_dispatch_arrays(file, file_len, &seats->last, seats->taken, seats->waiting, seats->heads[0], seats->bounds[0], seats->addrs[0],
                               seats->inps[0], seats->trans[0], seats->outs[0], seats->keys, key, key_space, seat, key_len, value);
}

/* ---- files written */

/* Converts a file of version 1 to version 2: the same nodes, keys and values, and an index in nodes of more than 32 transitions. A reader that trusts the
 * file finds a byte there at once; fst_get judges each node with its index, and takes longer in such nodes than before.
 *
 *   file, file_len       the old file, which is admitted first
 *   depths, sums         work tables of at least file_len entries each; afterwards as fst_admit leaves them, on every result
 *   out, out_len         on FST_OK the new file from out[0] on
 *   table, table_len     at least file_len entries; on FST_OK, at the address of each node of the old file, its address in the new one,
 *                        which is 0 for a node that is not written (final, without transitions, output 0), and 0 at the other entries
 *                        below file_len
 *   len                  the new file's length on FST_OK
 *
 * Out behind the new file and table from file_len on are left as they were; on any other result out, table and len are all as they were.
 *
 * Returns what fst_admit returns, FST_ERR_SPACE for the work tables among it; then FST_ERR_EDITION for a file that is not of version 1, a blank card
 * too; then FST_ERR_LARGE where the new file would be over FST_MAX_LEN bytes; then FST_ERR_SPACE where out is shorter than the new file, or table than
 * the old one; else FST_OK. The new file may be longer than the old one; a caller that gets FST_ERR_SPACE may call again with a longer out. It is
 * admitted, and fst_get and fst_range answer from it as from the old file. */
int32_t fst_convert(const uint8_t *file, size_t file_len, uint16_t *depths, size_t depths_len, uint64_t *sums, size_t sums_len,
                    uint8_t *out, size_t out_len, uint32_t *table, size_t table_len, size_t *len);

/* A cell of fst_pack: a node that was written, and its hash. Empty where the address is 1. A caller need not look into it. */
typedef struct fst_cell {
    uint64_t address;
    uint64_t hash;
} fst_cell;

#define FST_PACK_TABLE 65536 /* the entries of each working table of fst_pack: 1,114,112 bytes for the three                             */
#define FST_PACK_CELLS 20000 /* cells that will do for most lists, 320,000 bytes: with more, more equal nodes are found and stored once  */

/* The bytes of a list of so many keys with so many key bytes in all. */
#define FST_LIST_LEN(keys, key_bytes) ((size_t)8 + (size_t)12 * (size_t)(keys) + (size_t)(key_bytes))

/* Packs a list of keys and values into a file of version 2.
 *
 *   list, list_len         every number little-endian: the number of keys n and the total of their bytes, 4 bytes each; n ends, 4 bytes each;
 *                          n values, 8 bytes each; the key bytes. Key i is the key bytes from the end of the key before, 0 for the first, to its
 *                          own end. The keys ascend, and none stands twice. FST_LIST_LEN bytes
 *   out, out_len           on FST_OK the file from out[0] on, and zeros behind it; zeros on any other result
 *   cells, cells_len       at least two; on FST_OK as the run left them, all empty on any other result
 *   inputs, leasts, targets   working tables of at least FST_PACK_TABLE entries each; zeros afterwards, on every result
 *   len                    the file's length on FST_OK, and left as it was on any other result
 *
 * What the buffers held before does not matter. Every one is written whole.
 *
 * Returns FST_ERR_LIST for bytes that are no list: under 8, another length than FST_LIST_LEN, ends that fall or do not reach the total, a key over 255
 * bytes, a key that does not come after the one before; then FST_ERR_SPACE for a working table or an output that is too short, or fewer than two cells; then
 * FST_ERR_LARGE for a file over FST_MAX_LEN bytes; else FST_OK. A caller that gets FST_ERR_SPACE may call again with a longer out.
 *
 * The file is admitted, and holds exactly the listed keys, each with its value. */
int32_t fst_pack(const uint8_t *list, size_t list_len, uint8_t *out, size_t out_len, fst_cell *cells, size_t cells_len,
                 uint8_t *inputs, size_t inputs_len, uint64_t *leasts, size_t leasts_len, size_t *targets, size_t targets_len, size_t *len);

/* ---- a reading carried to another file */

/* What fst_carry calls: each field of a reading is an argument. */
int32_t fst_carry_arrays(const uint8_t *old_file, size_t old_len, const uint8_t *new_file, size_t new_len,
                         uint64_t *head, uint8_t *bound, uint32_t *addrs, uint8_t *inps, uint16_t *trans, uint64_t *outs, uint64_t keys);

/* Carries a reading of a file to the file that fst_convert made of it: fst_next goes on there where it stood.
 *
 *   old_file, old_len   the file that the reading was started on
 *   new_file, new_len   the new file
 *   reading             a reading of the new file on FST_OK, with as many keys to come; left as it was on any other result
 *
 * Returns FST_ERR_SHORT, FST_ERR_LARGE, FST_ERR_VERSION or FST_ERR_ROOT, as fst_open, of the old file, then of the new one; then FST_ERR_STATE, as fst_next on
 * the old file; then for each level of the reading, from the root on: FST_ERR_NODE for a node of the old file that is not sound; FST_ERR_CARRY where the new
 * file does not go on with the same byte; FST_ERR_NODE for its node; FST_ERR_CARRY where that node has another number of transitions or another sum; else FST_OK.
 *
 * From a file for which fst_count answered FST_OK to the file that fst_convert made of it, a reading that fst_start and fst_next left is carried, and the calls on
 * the new file hand out the keys and values that the old one had still to hand out. Carrying to any other file may be refused, or answered with that file's keys. */
static inline int32_t fst_carry(const uint8_t *old_file, size_t old_len, const uint8_t *new_file, size_t new_len, fst_reading *reading)
{
    return fst_carry_arrays(old_file, old_len, new_file, new_len, reading->head, reading->bound, reading->addrs, reading->inps, reading->trans,
                            reading->outs, reading->keys[0]);
}

/* ---- several files as one: their keys merged, the least first, a page a call */

#define FST_UNION                0 /* the keys that a file holds                        */
#define FST_INTERSECTION         1 /* those that every file holds                       */
#define FST_DIFFERENCE           2 /* those that the first file holds and no other does */
#define FST_SYMMETRIC_DIFFERENCE 3 /* those that an odd number of files hold; as any other number */

#define FST_FILES 8 /* the most files of an operation */

/* A whole file. */
typedef struct fst_file {
    const uint8_t *bytes; /* may be NULL where len is 0 */
    size_t len;
} fst_file;

/* What fst_items calls: eight files, of which the first count are looked at. */
int32_t fst_items_rows(uint64_t op, size_t count,
                       const uint8_t *a, size_t a_len, const uint8_t *b, size_t b_len, const uint8_t *c, size_t c_len, const uint8_t *d, size_t d_len,
                       const uint8_t *e, size_t e_len, const uint8_t *f, size_t f_len, const uint8_t *g, size_t g_len, const uint8_t *h, size_t h_len,
                       uint64_t lower_kind, const uint8_t *lower, size_t lower_len, uint64_t upper_kind, const uint8_t *upper, size_t upper_len,
                       size_t most, uint8_t *rows, size_t rows_len, uint8_t *counts, size_t counts_len,
                       uint8_t *numbers, size_t numbers_len, uint64_t *values, size_t values_len, size_t *found);

/* Up to so many items of an operation over several files, the least key first: each a key, with its value in every file that holds it.
 *
 *   op               FST_UNION to FST_SYMMETRIC_DIFFERENCE
 *   files, count     the files, 1 to 8
 *   lower, upper     the bounds, the same for all files; NULL is unbounded
 *   most             how many items at most
 *   rows, counts, numbers, values   at least so many of each: row i holds a key, counts[i] says how many files hold it, and the first so many of
 *                    numbers[i] and values[i] are these files' places in files, from 0, and the key's values there, by value and then by file;
 *                    those behind them are 0
 *   found            how many items were found: 0 to most, on every result
 *
 * Of the first found rows the bytes after the key are left as they were; everything from found on is left as it was.
 *
 * Returns FST_ERR_CARDS for a count of 0 or over 8, then FST_ERR_SPACE where so many rows would pass the address space, then for each file in turn what
 * fst_range answers before its first key; all with no item. Then FST_END where fewer items are left than were asked for, and so none is left; FST_MORE
 * where there were as many; or what a file met after found items: FST_ERR_NODE, FST_ERR_DEEP, FST_ERR_SUM, or FST_ERR_STATE at the 2^64th key of a file.
 *
 * On files that fst_count counts, FST_END or FST_MORE comes, unless a bound is too long: the rows are the first keys that belong to the operation, each
 * with all its values. The next page is asked for with the last key as an excluded lower bound. Nothing is kept between the calls, and no table is lent. */
static inline int32_t fst_items(uint64_t op, const fst_file *files, size_t count, const fst_bound *lower, const fst_bound *upper,
                                size_t most, fst_row *rows, uint8_t *counts, uint8_t (*numbers)[FST_FILES], uint64_t (*values)[FST_FILES],
                                size_t *found)
{
    const fst_bound none = { FST_UNBOUNDED, NULL, 0 };
    const fst_bound lo = lower == NULL ? none : *lower;
    const fst_bound hi = upper == NULL ? none : *upper;
    fst_file f[FST_FILES] = { { NULL, 0 }, { NULL, 0 }, { NULL, 0 }, { NULL, 0 }, { NULL, 0 }, { NULL, 0 }, { NULL, 0 }, { NULL, 0 } };
    size_t i;
    for (i = 0; i < count && i < FST_FILES; i++) {
        f[i] = files[i];
    }
    return fst_items_rows(op, count, f[0].bytes, f[0].len, f[1].bytes, f[1].len, f[2].bytes, f[2].len, f[3].bytes, f[3].len,
                          f[4].bytes, f[4].len, f[5].bytes, f[5].len, f[6].bytes, f[6].len, f[7].bytes, f[7].len,
                          (uint64_t)lo.kind, lo.key, lo.len, (uint64_t)hi.kind, hi.key, hi.len,
                          most, (uint8_t *)rows, most * sizeof *rows, counts, most,
                          (uint8_t *)numbers, most * FST_FILES, (uint64_t *)values, most * FST_FILES, found);
}

#ifdef __cplusplus
}
#endif

#endif
