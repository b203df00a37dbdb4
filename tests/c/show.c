/* The program of README.md: its part between the two marks stands there, with its output. */
#include <stdio.h>

#include "baxhiso.h"

/* The 50-byte file D: a has 1, at has 3, e has 4. */
static const uint8_t card[50] = {
    3, 0, 0, 0, 0, 0, 0, 0, 0, 0, 0, 0, 0, 0, 0, 0,
    0x00, 0x02, 0x00, 0x74, 0x11, 0x41, 0x04, 0x01, 0x00, 0x01, 0x65, 0x61, 0x11, 0x02,
    3, 0, 0, 0, 0, 0, 0, 0, 29, 0, 0, 0, 0, 0, 0, 0, 0, 0, 0, 0,
};

static const uint8_t ate[] = { 'a', 't', 'e' };

int main(void)
{
    /* begin */
    uint64_t sums[50], values[20], value;
    uint16_t depths[50];
    uint8_t key[FST_KEY_SPACE];
    size_t len, n;
    if (fst_admit(card, 50, depths, 50, sums, 50) != FST_OK)
        return 1;
    if (fst_get(card, 50, ate, 2, &value) == FST_OK)
        printf("at has %llu\n", (unsigned long long)value);
    if (fst_get_key(card, 50, 4, key, sizeof key, &len) == FST_OK)
        printf("4 is the value of %.*s\n", (int)len, (const char *)key);
    printf("ate: %s\n", fst_result_name(fst_get(card, 50, ate, 3, &value)));
    printf("the first 35 bytes: %s\n", fst_result_name(fst_get(card, 35, ate, 2, &value)));

    /* a page of up to 20 keys, from behind "a" on; after FST_MORE the next page starts behind rows[n - 1] */
    fst_row rows[20];
    fst_bound lower = { FST_EXCLUDED, ate, 1 };
    int32_t result = fst_range(card, 50, &lower, NULL, 20, rows, values, &n);
    for (size_t i = 0; i < n; i++)
        printf("%.*s %llu\n", rows[i].len, (const char *)rows[i].key, (unsigned long long)values[i]);
    printf("%s\n", fst_result_name(result));
    /* end */
    return 0;
}
