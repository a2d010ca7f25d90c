/* What the files of the mover by hand share. Data blocks are counted from 0 here: number j is block j + 1 of the store. */
#ifndef PLAIN_INNER_H
#define PLAIN_INNER_H

#include <stddef.h>
#include <stdint.h>
#include <string.h>

enum { BLOCKS = 64, PAGES = 64, ORIGINALS = BLOCKS * PAGES, ERASED = 255, NONE = 255, DROPPED = 65535, COUNTERS = 65, WEAR_BYTES = 4 * COUNTERS + 5 };

struct sizes {
    uint32_t n, m, p, s;
};

static inline int sizes_fit(const struct sizes *z)
{
    return z->n - 1 < BLOCKS && z->m - 1 < PAGES && z->p - 1 < 4096 && z->s <= 2;
}

static inline uint8_t letter(const struct sizes *z, uint32_t i)
{
    return (uint8_t)((z->s + i) % 3);
}

/* Entry k, two bytes, low byte first: one load where the machine has that order. */
static inline uint32_t entry(const uint8_t *list, size_t k)
{
#if defined(__BYTE_ORDER__) && __BYTE_ORDER__ == __ORDER_LITTLE_ENDIAN__
    uint16_t number;
    memcpy(&number, list + 2 * k, 2);
    return number;
#else
    return list[2 * k] | (uint32_t)list[2 * k + 1] << 8;
#endif
}

/* A counter of the record, four bytes, in the same order. */
static inline uint32_t counter(const uint8_t *wear, size_t block)
{
    const uint8_t *at = wear + 4 * block;
    return at[0] | (uint32_t)at[1] << 8 | (uint32_t)at[2] << 16 | (uint32_t)at[3] << 24;
}

/* A number below 64 * m is divided by m as block_of(number, inverse_of(m)). */
static inline uint32_t inverse_of(uint32_t m)
{
    return (UINT32_C(1) << 20) / m + 1;
}

static inline uint32_t block_of(uint32_t number, uint32_t inverse)
{
    return number * inverse >> 20;
}

/* Bytes that equal their neighbours are all the same, and memcmp is the fastest loop there is. At a distance of 64 both sides of
 * it are aligned alike. */
static inline int all_are(const uint8_t *bytes, uint64_t count, uint8_t value)
{
    if (count <= 64)
        return count == 0 || (bytes[0] == value && memcmp(bytes, bytes + 1, count - 1) == 0);
    return bytes[0] == value && memcmp(bytes, bytes + 1, 63) == 0 && memcmp(bytes, bytes + 64, count - 64) == 0;
}

/* One set, by block: which page is the set's, the block that it goes to, and the block whose page comes. */
struct row {
    uint8_t page[BLOCKS], to[BLOCKS], from[BLOCKS];
};

/* A list as lent, and with places for its dropped pages: the lent one itself if it has none. */
struct list {
    const uint8_t *lent, *whole;
    uint8_t room[2 * ORIGINALS];
};

static inline int drops(const struct list *list, uint32_t k)
{
    return list->whole != list->lent && entry(list->lent, k) == DROPPED;
}

/* plain_check.c: lists, pins, sets, and the refusals 1, 2, 3, 11 and 4 of run, read and rebuild; read lends no record, rebuild no work page either. The list is completed, and set_of gets
 * the set of the original that goes to each number. */
int plain_complete(struct list *list, const uint8_t *lent, uint32_t originals);
int plain_one_to_one(const uint8_t *list, uint32_t originals);
int plain_moves_pinned(const uint8_t *list, const uint8_t *pins, uint32_t originals);
uint32_t plain_refusal(const struct sizes *z, const uint8_t *list, uint64_t list_len, const uint8_t *pins, uint64_t pins_len,
                       const uint8_t *sets, uint64_t sets_len, uint64_t store_len, uint64_t marks_len, uint64_t work_len,
                       uint64_t wear_len, struct list *completed, uint8_t *set_of);
void plain_row(struct row *row, const struct sizes *z, const uint8_t *list, const uint8_t *sets, uint32_t set);
void plain_rows(struct row *rows, const struct sizes *z, const uint8_t *list, const uint8_t *sets);

/* plain_marks.c: blocks of the store below `block` are full of s + 1; from it on, or above it if it is torn, they are full of s
 * (forward) or of s + 2. */
struct moment {
    uint32_t block;
    int torn, forward;
};

int plain_moment(const struct sizes *z, const uint8_t *marks, struct moment *found);
/* Counts the erase too. */
void plain_erase(const struct sizes *z, uint8_t *store, uint8_t *marks, uint8_t *wear, uint32_t block);
/* Whether a whole move would wear a block past the limit. */
int plain_worn(const struct sizes *z, const uint8_t *wear, uint32_t limit);

/* plain_read.c: what a read needs to know of one set, and the pages to sum for its original from block v. */
struct reading {
    const uint8_t *store, *pages[BLOCKS + 1];
    uint32_t n, m, p, set;
    int turned;                            /* whether 255s are in the sum */
    const struct list *list;
    const struct row *row;
};

uint32_t plain_gather(struct reading *r, const struct moment *at, uint32_t v);
const uint8_t *plain_coded(const struct reading *r, uint32_t v);
const uint8_t *plain_own(const struct reading *r, uint32_t v);
const uint8_t *plain_final(const struct reading *r, uint32_t v);

/* plain_sum.c: `to` becomes the sum of the pages, which lie elsewhere, turned over if 255s are to be added. Returns how many of its bytes
 * are not 255. */
uint32_t plain_sum(uint8_t *to, const uint8_t *const *pages, uint32_t count, int turned, uint32_t bytes);

#endif
