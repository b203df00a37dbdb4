/* What damage.c and damage_files.c share: numbers that look random, buffers that end at a page without access, and damaged copies of files. */
#ifndef GUARDED_H
#define GUARDED_H

#define _DEFAULT_SOURCE
#include <stdio.h>
#include <stdlib.h>
#include <string.h>
#include <sys/mman.h>

#include "baxhiso.h"

#define PAGE ((size_t)4096)
#define LONGEST ((size_t)4100)
#define TABLE (LONGEST + 8)
#define MARK 0xA5

static unsigned long differences;

static inline void expect(int holds, const char *what)
{
    if (!holds && differences++ < 20)
        printf("damage: %s\n", what);
}

/* ---- numbers that look random, the same in every run */

static uint64_t state = UINT64_C(0x9E3779B97F4A7C15);

static inline uint64_t any(void)
{
    state ^= state << 13;
    state ^= state >> 7;
    state ^= state << 17;
    return state;
}

static inline size_t below(size_t n)
{
    return (size_t)(any() % n);
}

static inline int one_in(size_t n)
{
    return below(n) == 0;
}

/* ---- buffers that end at a page without access */

typedef struct region {
    uint8_t *start, *end;
} region;

static inline region map(size_t bytes)
{
    size_t pages = (bytes + PAGE - 1) / PAGE * PAGE;
    uint8_t *p = mmap(NULL, pages + 2 * PAGE, PROT_READ | PROT_WRITE, MAP_PRIVATE | MAP_ANONYMOUS, -1, 0);
    region r;
    if (p == MAP_FAILED || mprotect(p, PAGE, PROT_NONE) != 0 || mprotect(p + PAGE + pages, PAGE, PROT_NONE) != 0) {
        perror("damage: no guarded buffer");
        exit(2);
    }
    r.start = p + PAGE;
    r.end = p + PAGE + pages;
    return r;
}

static inline void *lent(region r, size_t bytes)
{
    return r.end - bytes;
}

static inline void writable(region r, int yes)
{
    if (mprotect(r.start, (size_t)(r.end - r.start), yes ? PROT_READ | PROT_WRITE : PROT_READ) != 0) {
        perror("damage: mprotect");
        exit(2);
    }
}

/* ---- a file, damaged or not */

static uint8_t **bases;
static size_t *base_lens, base_count;

static inline void load(const char *path)
{
    uint8_t bytes[LONGEST];
    FILE *in = fopen(path, "rb");
    size_t n = in == NULL ? 0 : fread(bytes, 1, sizeof bytes, in);
    if (in == NULL || ferror(in)) {
        perror(path);
        exit(2);
    }
    fclose(in);
    if (n < sizeof bytes) {
        bases[base_count] = malloc(n + 1);
        memcpy(bases[base_count], bytes, n);
        base_lens[base_count++] = n;
    }
}

/* The files that are named from the third word on; room for as many again. */
static inline void load_all(int argc, char **argv)
{
    bases = calloc(2 * (size_t)argc, sizeof *bases);
    base_lens = calloc(2 * (size_t)argc, sizeof *base_lens);
    for (int i = 2; i < argc; i++)
        load(argv[i]);
}

static inline void free_all(void)
{
    for (size_t i = 0; i < base_count; i++)
        free(bases[i]);
    free(bases);
    free(base_lens);
}

/* A copy that may be cut and has up to four bytes changed, or none; afterwards it may only be read. */
static inline uint8_t *damaged_copy(region at, const uint8_t *bytes, size_t n, size_t *len)
{
    size_t changes = one_in(3) ? 0 : 1 + below(4);
    uint8_t *f;
    if (one_in(40))
        n = below(n + 1);
    writable(at, 1);
    f = lent(at, n);
    memcpy(f, bytes, n);
    for (; changes > 0 && n > 0; changes--)
        f[below(n)] = one_in(2) ? (uint8_t)any() : (uint8_t)(1u << below(8));
    writable(at, 0);
    *len = n;
    return f;
}

static region files;

static inline uint8_t *damaged(size_t *len)
{
    size_t base = below(base_count);
    return damaged_copy(files, bases[base], base_lens[base], len);
}

/* ---- results */

static inline int among(int32_t result, const int *results)
{
    for (; *results != 100; results++) {
        if (*results == result)
            return 1;
    }
    return 0;
}

static inline int filled(const uint8_t *p, size_t n, uint8_t byte)
{
    for (size_t i = 0; i < n; i++) {
        if (p[i] != byte)
            return 0;
    }
    return 1;
}

/* A bound: none, or bytes like those of keys; at times over 255. */
static inline const fst_bound *bound(region at, fst_bound *b)
{
    static const char likely[] = "abcdefghijklmnopqrstuvwxyz0123456789at";
    size_t n = one_in(50) ? 250 + below(8) : below(6);
    uint8_t *key = lent(at, n);
    for (size_t i = 0; i < n; i++)
        key[i] = one_in(4) ? (uint8_t)any() : (uint8_t)likely[below(sizeof likely - 1)];
    b->kind = (int)below(3);
    b->key = key;
    b->len = n;
    return one_in(3) ? NULL : b;
}

/* A reading that no start gave. */
static inline void make_reading(size_t len, fst_reading *reading)
{
    uint8_t *bytes = (uint8_t *)reading;
    size_t root = len > 21 ? len - 21 : 0;
    for (size_t i = 0; i < sizeof *reading; i++)
        bytes[i] = (uint8_t)any();
    for (size_t i = 0; i < 256; i++) {
        reading->addrs[i] = (uint32_t)(one_in(3) ? root : below(len + 2));
        reading->trans[i] = (uint16_t)(one_in(9) ? any() : below(4));
        reading->outs[i] = one_in(9) ? any() : below(1000);
    }
    reading->head[0] = one_in(20) ? any() : len;
    reading->head[1] = one_in(2) ? FST_UNBOUNDED : below(4);
    reading->head[2] = one_in(20) ? any() : below(257);
    reading->head[3] = below(2);
    reading->head[6] = one_in(20) ? any() : below(258);
    reading->keys[0] = one_in(9) ? any() : below(5);
}

#endif
