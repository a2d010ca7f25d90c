/* The split by hand. Pages are taken in ascending order, so every block before the page's own has all sets, and its own has those
 * below the page's number: that number is the lowest free set there. A walk comes to a source by a page of that set, so never to
 * the page's own block; it goes on from every source, and ends at a destination. */
#include "plain.h"
#include "plain_inner.h"

struct edge {
    uint8_t to, page;
};

struct colouring {
    uint64_t used[BLOCKS];                 /* by destination: its sets */
    uint8_t source[PAGES][BLOCKS];         /* by set and destination: the block that its page comes from, or NONE */
    struct edge edge[PAGES][BLOCKS];       /* by set and source: its page, and the block where that goes */
};

static uint32_t lowest_free(uint64_t used)
{
#ifdef __GNUC__
    return (uint32_t)__builtin_ctzll(~used);
#else
    uint32_t set = 0;
    while (used >> set & 1)
        set++;
    return set;
#endif
}

/* Exchanges a and b on the walk that starts at a destination with its page of set a. If it has none, the walk is empty, and what
 * is done to the masks comes to the same: the destination gets a. */
static void exchange(struct colouring *c, size_t start, size_t a, size_t b)
{
    uint8_t *source_a = c->source[a], *source_b = c->source[b];
    struct edge *edge_a = c->edge[a], *edge_b = c->edge[b];
    size_t at = start, source = source_a[at];
    while (source != NONE) {
        struct edge next = edge_b[source];
        size_t before = source;
        source_b[at] = (uint8_t)source;
        edge_b[source] = edge_a[source];
        edge_a[source] = next;
        at = next.to;
        source = source_a[at];
        source_a[at] = (uint8_t)before;
    }
    source_b[at] = NONE;
    c->used[start] ^= UINT64_C(1) << b;
    c->used[at] ^= UINT64_C(1) << a ^ UINT64_C(1) << b;
}

static void colour(size_t n, size_t m, const uint8_t *list, uint8_t *sets)
{
    struct colouring c;
    uint32_t inverse = inverse_of((uint32_t)m);
    size_t k = 0;
    memset(c.used, 0, n * sizeof c.used[0]);
    memset(c.source, NONE, m * sizeof c.source[0]);
    for (size_t block = 0; block < n; block++)
        for (size_t page = 0; page < m; page++, k++) {
            size_t to = block_of(entry(list, k), inverse);
            exchange(&c, to, page, lowest_free(c.used[to]));
            c.source[page][to] = (uint8_t)block;
            c.edge[page][block].to = (uint8_t)to;
            c.edge[page][block].page = (uint8_t)page;
        }
    for (size_t block = 0; block < n; block++)
        for (size_t set = 0; set < m; set++)
            sets[block * m + c.edge[set][block].page] = (uint8_t)set;
}

uint32_t plain_split(uint32_t n, uint32_t m, uint32_t page_bytes, uint32_t s,
                     const uint8_t *list, uint64_t list_len, const uint8_t *pins, uint64_t pins_len,
                     uint8_t *sets, uint64_t sets_len)
{
    struct sizes z = {n, m, page_bytes, s};
    struct list completed;
    if (!sizes_fit(&z))
        return 1;
    if (list_len != 2 * n * m || pins_len != n * m || sets_len != n * m)
        return 2;
    if (!plain_complete(&completed, list, n * m) || !plain_one_to_one(completed.whole, n * m))
        return 3;
    if (plain_moves_pinned(list, pins, n * m))
        return 11;
    colour(n, m, completed.whole, sets);
    return 0;
}
