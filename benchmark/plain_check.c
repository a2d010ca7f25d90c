/* By hand: is the list one-to-one, or can be completed to be; does it keep what is pinned; are the sets a split of it; the sets as tables. */
#include "plain_inner.h"

/* Numbers below 4,096 may index a table. */
static int numbers_small(const uint8_t *list, size_t originals)
{
    uint8_t high = 0;
    for (size_t k = 0; k < originals; k++)
        high |= list[2 * k + 1];
    return high < ORIGINALS / 256;
}

static uint8_t highest(const uint8_t *bytes, size_t count)
{
    uint8_t high = 0;
    for (size_t k = 0; k < count; k++)
        high = bytes[k] > high ? bytes[k] : high;
    return high;
}

/* The places of kept pages; 0 if one is out of range or met twice. */
static int meet_kept(const uint8_t *lent, size_t originals, uint8_t *met)
{
    memset(met, 0, originals);
    for (size_t k = 0; k < originals; k++) {
        uint32_t number = entry(lent, k);
        if (number == DROPPED)
            continue;
        if (number >= originals || met[number])
            return 0;
        met[number] = 1;
    }
    return 1;
}

/* Lists without dropped pages, which most are, have small numbers only, and are not yet looked at for numbers met twice. */
int plain_complete(struct list *list, const uint8_t *lent, uint32_t originals)
{
    uint8_t met[ORIGINALS];
    size_t place = 0;
    list->lent = list->whole = lent;
    if (numbers_small(lent, originals))
        return 1;
    if (!meet_kept(lent, originals, met))
        return 0;
    memcpy(list->room, lent, 2 * (size_t)originals);
    list->whole = list->room;
    for (size_t k = 0; k < originals; k++)
        if (entry(lent, k) == DROPPED) {
            while (met[place])
                place++;
            list->room[2 * k] = (uint8_t)(place & 255);
            list->room[2 * k + 1] = (uint8_t)(place >> 8);
            place++;
        }
    return 1;
}

/* As many numbers as places: none is met twice, nor out of range, if every place is met. */
int plain_one_to_one(const uint8_t *list, uint32_t originals)
{
    uint8_t met[ORIGINALS];
    memset(met, 0, originals);
    for (size_t k = 0; k < originals; k++)
        met[entry(list, k)] = 1;
    return all_are(met, originals, 1);
}

/* Most stores have no pins, which memcmp sees soonest. Else a loop of 16 bits without a branch, which vectors take. No page has the
 * number that drops one. */
int plain_moves_pinned(const uint8_t *list, const uint8_t *pins, uint32_t originals)
{
    uint16_t moved = 0;
    if (all_are(pins, originals, 0))
        return 0;
    for (uint32_t k = 0; k < originals; k++)
        moved |= (uint16_t)((entry(list, k) ^ k) & (pins[k] == 0 ? 0 : 0xFFFF));
    return moved != 0;
}

/* The sets of a row of pages, as bits; two words, so that one need not wait for the other. */
static uint64_t sets_met(const uint8_t *row, size_t pages)
{
    uint64_t one = 0, two = 0;
    size_t page = 0;
    for (; page + 4 <= pages; page += 4) {
        one |= UINT64_C(1) << (row[page] & 63) | UINT64_C(1) << (row[page + 1] & 63);
        two |= UINT64_C(1) << (row[page + 2] & 63) | UINT64_C(1) << (row[page + 3] & 63);
    }
    for (; page < pages; page++)
        one |= UINT64_C(1) << (row[page] & 63);
    return one | two;
}

/* Both at once. By the same count m pages have all m sets if every set is met. */
static int carries(const struct sizes *z, const uint8_t *list, const uint8_t *sets, uint8_t *set_of)
{
    size_t originals = z->n * z->m, m = z->m;
    uint64_t all = ~UINT64_C(0) >> (64 - m), lacking = 0;
    if (highest(sets, originals) >= m)
        return 0;
    memset(set_of, NONE, originals);
    for (size_t k = 0; k < originals;) {
        uint64_t met = 0;
        for (size_t end = k + m; k < end; k++) {
            uint8_t set = sets[k];
            set_of[entry(list, k)] = set;
            met |= UINT64_C(1) << (set & 63);
        }
        lacking |= met ^ all;
    }
    if (memchr(set_of, NONE, originals) != NULL)
        return 0;
    for (size_t k = 0; k < originals; k += m)
        lacking |= sets_met(set_of + k, m) ^ all;
    return lacking == 0;
}

uint32_t plain_refusal(const struct sizes *z, const uint8_t *list, uint64_t list_len, const uint8_t *pins, uint64_t pins_len,
                       const uint8_t *sets, uint64_t sets_len, uint64_t store_len, uint64_t marks_len, uint64_t work_len,
                       uint64_t wear_len, struct list *completed, uint8_t *set_of)
{
    uint32_t originals, slots;
    int good;
    if (!sizes_fit(z))
        return 1;
    originals = z->n * z->m;
    slots = originals + z->m;
    if (list_len != 2 * originals || pins_len != originals || sets_len != originals || store_len != (uint64_t)slots * z->p
        || marks_len != slots || work_len != z->p || wear_len != WEAR_BYTES)
        return 2;
    if (!plain_complete(completed, list, originals))
        return 3;
    good = carries(z, completed->whole, sets, set_of);
    if (!good && !plain_one_to_one(completed->whole, originals))
        return 3;
    if (plain_moves_pinned(list, pins, originals))
        return 11;
    return good ? 0 : 4;
}

void plain_row(struct row *row, const struct sizes *z, const uint8_t *list, const uint8_t *sets, uint32_t set)
{
    uint32_t inverse = inverse_of(z->m);
    for (uint32_t block = 0; block < z->n; block++) {
        const uint8_t *first = sets + block * z->m, *found = memchr(first, (int)set, z->m);
        uint32_t to = block_of(entry(list, (uint32_t)(found - sets)), inverse);
        row->page[block] = (uint8_t)(found - first);
        row->to[block] = (uint8_t)to;
        row->from[to] = (uint8_t)block;
    }
}

void plain_rows(struct row *rows, const struct sizes *z, const uint8_t *list, const uint8_t *sets)
{
    uint32_t inverse = inverse_of(z->m), k = 0;
    for (uint32_t block = 0; block < z->n; block++)
        for (uint32_t page = 0; page < z->m; page++, k++) {
            struct row *row = &rows[sets[k]];
            uint32_t to = block_of(entry(list, k), inverse);
            row->page[block] = (uint8_t)page;
            row->to[block] = (uint8_t)to;
            row->from[to] = (uint8_t)block;
        }
}
