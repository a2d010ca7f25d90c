/* Rebuild by hand. All sets are laid out in tables once; each original is the sum that read takes, and only where that has the page given up is
 * another one looked for. */
#include "plain.h"
#include "plain_inner.h"

enum { MOST_ZERO = BLOCKS + 2, MOST_OTHER = BLOCKS + 1 + MOST_ZERO };

struct rebuilding {
    struct moment at;
    const uint8_t *bad;
    struct row rows[PAGES];
};

static int among(const uint8_t *const *pages, uint32_t count, const uint8_t *page)
{
    for (uint32_t i = 0; i < count; i++)
        if (pages[i] == page)
            return 1;
    return 0;
}

static int is_top(const struct row *row, uint32_t v)
{
    uint32_t u = row->from[v];
    while (u < v)
        u = row->from[u];
    return u == v;
}

/* No block is torn: pages of a set that sum to zeros. The page that was written last is the sum of those read for it, when its block was not yet
 * there. */
static uint32_t zero_sum(struct reading *r, const struct rebuilding *b, const uint8_t **zero)
{
    struct moment begun = {b->at.block, 1, b->at.forward};
    uint32_t count = 0, v = b->at.block - 1, from = r->row->from[v], read = 0;
    if (b->at.forward) {
        begun.block = v;
        zero[count++] = plain_coded(r, v);
        zero[count++] = plain_own(r, v);
        if (!is_top(r->row, v))
            read = plain_gather(r, &begun, from);
    } else {
        zero[count++] = plain_final(r, from);
        read = plain_gather(r, &begun, from);
    }
    memcpy(zero + count, r->pages, read * sizeof *zero);
    return count + read;
}

/* Pages of one of the two sums but not of both. */
static uint32_t apart(const uint8_t *const *one, uint32_t ones, const uint8_t *const *other, uint32_t others, const uint8_t **to)
{
    uint32_t count = 0;
    for (uint32_t i = 0; i < ones; i++)
        if (!among(other, others, one[i]))
            to[count++] = one[i];
    for (uint32_t i = 0; i < others; i++)
        if (!among(one, ones, other[i]))
            to[count++] = other[i];
    return count;
}

/* Read's sum has the page that was given up: the other one, or none. Returns the flag. */
static uint8_t by_other(struct reading *r, const struct rebuilding *b, uint32_t count, uint8_t *to)
{
    const uint8_t *own[BLOCKS + 1], *zero[MOST_ZERO], *other[MOST_OTHER];
    uint32_t zeros;
    memcpy(own, r->pages, count * sizeof *own);
    zeros = b->at.torn ? 0 : zero_sum(r, b, zero);
    if (!among(zero, zeros, b->bad)) {
        memset(to, ERASED, r->p);
        return 0;
    }
    plain_sum(to, other, apart(own, count, zero, zeros, other), 0, r->p);
    return 1;
}

uint32_t plain_rebuild(uint32_t n, uint32_t m, uint32_t page_bytes, uint32_t s,
                       const uint8_t *list, uint64_t list_len, const uint8_t *pins, uint64_t pins_len, const uint8_t *sets, uint64_t sets_len,
                       const uint8_t *store, uint64_t store_len, const uint8_t *marks, uint64_t marks_len,
                       uint8_t *area, uint64_t area_len, uint8_t *flags, uint64_t flags_len, uint32_t slot)
{
    struct sizes z = {n, m, page_bytes, s};
    struct list completed;
    struct rebuilding b;
    struct reading r;
    uint8_t set_of[ORIGINALS];
    uint32_t number, k = 0;
    if (!sizes_fit(&z))
        return 1;
    if (area_len != (uint64_t)n * m * page_bytes || flags_len != n * m)
        return 2;
    number = plain_refusal(&z, list, list_len, pins, pins_len, sets, sets_len, store_len, marks_len, page_bytes, WEAR_BYTES, &completed, set_of);
    if (number == 2 || number == 3)
        return number;
    if (completed.whole != completed.lent)
        return 3;
    if (number != 0)
        return number;
    if (!plain_moment(&z, marks, &b.at))
        return 6;
    if (slot >= (n + 1) * m)
        return 7;
    b.bad = store + (uint64_t)slot * page_bytes;
    plain_rows(b.rows, &z, list, sets);
    r.store = store;
    r.turned = 0;
    r.n = n;
    r.m = m;
    r.p = page_bytes;
    r.list = &completed;
    for (uint32_t block = 0; block < n; block++)
        for (uint32_t page = 0; page < m; page++, k++, area += page_bytes) {
            uint32_t count;
            r.set = sets[k];
            r.row = &b.rows[r.set];
            count = plain_gather(&r, &b.at, block);
            if (among(r.pages, count, b.bad)) {
                flags[k] = by_other(&r, &b, count, area);
                continue;
            }
            plain_sum(area, r.pages, count, 0, page_bytes);
            flags[k] = 1;
        }
    return 0;
}
