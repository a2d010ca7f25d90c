/* By hand: erases and their count, how the marks are read, and mend. */
#include "plain.h"
#include "plain_inner.h"

static void set_counter(uint8_t *wear, uint32_t block, uint32_t count)
{
    for (int i = 0; i < 4; i++)
        wear[4 * block + (uint32_t)i] = (uint8_t)(count >> 8 * i);
}

/* A full counter stays. The highest count, with its block, stands behind the counters. */
static void count_erase(uint8_t *wear, uint32_t block)
{
    uint32_t count = counter(wear, block), highest = counter(wear, COUNTERS);
    count += count != UINT32_MAX;
    set_counter(wear, block, count);
    if (count > highest || (count == highest && block < wear[WEAR_BYTES - 1])) {
        set_counter(wear, COUNTERS, count);
        wear[WEAR_BYTES - 1] = (uint8_t)block;
    }
}

uint32_t plain_wear_refresh(uint8_t *wear, uint64_t wear_len)
{
    uint32_t most = 0;
    if (wear_len != WEAR_BYTES)
        return 2;
    for (uint32_t block = 1; block < COUNTERS; block++)
        if (counter(wear, block) > counter(wear, most))
            most = block;
    set_counter(wear, COUNTERS, counter(wear, most));
    wear[WEAR_BYTES - 1] = (uint8_t)most;
    return 0;
}

void plain_erase(const struct sizes *z, uint8_t *store, uint8_t *marks, uint8_t *wear, uint32_t block)
{
    uint64_t first = (uint64_t)block * z->m;
    count_erase(wear, block);
    memset(store + first * z->p, ERASED, (uint64_t)z->m * z->p);
    memset(marks + first, ERASED, z->m);
}

/* Blocks 0 and n are erased once, and those between twice. */
int plain_worn(const struct sizes *z, const uint8_t *wear, uint32_t limit)
{
    for (uint32_t block = 0; block <= z->n; block++)
        if ((uint64_t)counter(wear, block) + (block == 0 || block == z->n ? 1 : 2) > limit)
            return 1;
    return 0;
}

/* The first block that is not full of the letter, if the marks fit: its first mark is the last in the row of those that are the
 * letter, or the next one. */
static uint32_t first_other(const struct sizes *z, const uint8_t *marks, uint8_t is)
{
    uint32_t low = 0, high = z->n + 1;
    while (low < high) {
        uint32_t middle = (low + high) / 2;
        if (marks[middle * z->m] == is)
            low = middle + 1;
        else
            high = middle;
    }
    return low > 0 && !all_are(marks + (low - 1) * z->m, z->m, is) ? low - 1 : low;
}

/* Whether the marks fit a moment of the move. */
int plain_moment(const struct sizes *z, const uint8_t *marks, struct moment *found)
{
    uint8_t coded = letter(z, 1), above;
    uint32_t block = first_other(z, marks, coded), first = block * z->m, from;
    if (block > z->n || !all_are(marks, first, coded))
        return 0;
    found->block = block;
    found->torn = marks[first] > 2 || !all_are(marks + first, z->m, marks[first]);
    if (!found->torn && block == 0)
        return 0;
    from = found->torn ? first + z->m : first;
    found->forward = 1;
    if (block == z->n && found->torn)
        return 1;
    above = marks[from];
    found->forward = above == letter(z, 0);
    return above <= 2 && above != coded && all_are(marks + from, (z->n + 1) * z->m - from, above);
}

uint32_t plain_mend(uint32_t n, uint32_t m, uint32_t page_bytes, uint32_t s,
                    uint8_t *store, uint64_t store_len, uint8_t *marks, uint64_t marks_len, uint8_t *wear, uint64_t wear_len,
                    uint32_t *place, uint32_t *erases)
{
    struct sizes z = {n, m, page_bytes, s};
    struct moment found;
    uint32_t turn;
    *place = *erases = 0;
    if (!sizes_fit(&z))
        return 1;
    if (store_len != (uint64_t)(n + 1) * m * page_bytes || marks_len != (n + 1) * m
        || wear_len != WEAR_BYTES)
        return 2;
    if (!plain_moment(&z, marks, &found))
        return 6;
    turn = !found.forward ? 2 * n - found.block : found.torn ? found.block : found.block - 1;
    if (found.torn)
        plain_erase(&z, store, marks, wear, found.block);
    *place = turn * (m + 1) + (found.torn ? 0 : m);
    *erases = found.torn ? 1 : 0;
    return 0;
}
