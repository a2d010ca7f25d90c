/* Read by hand. Only the rows of the original's own set are made; the marks are read once, and what a block holds follows. */
#include "plain.h"
#include "plain_inner.h"

static const uint8_t *slot(const struct reading *r, uint32_t number)
{
    return r->store + (uint64_t)number * r->p;
}

const uint8_t *plain_coded(const struct reading *r, uint32_t v)
{
    return slot(r, v * r->m + r->set);
}

const uint8_t *plain_own(const struct reading *r, uint32_t v)
{
    return slot(r, (v + 1) * r->m + r->row->page[v]);
}

const uint8_t *plain_final(const struct reading *r, uint32_t v)
{
    return slot(r, r->m + entry(r->list->whole, v * r->m + r->row->page[v]));
}

/* Back from v to a block from `whole` on, which is plain or dropped, or to the top, which is known once the walk has come round. */
static uint32_t back(struct reading *r, uint32_t v, uint32_t whole)
{
    uint32_t u = v, count = 0, top = 0, to_top = 0;
    do {
        r->pages[count++] = plain_coded(r, u);
        if (u >= top) {
            top = u;
            to_top = count;
        }
        u = r->row->from[u];
        if (u >= whole) {
            r->turned = drops(r->list, u * r->m + r->row->page[u]);
            r->pages[count] = plain_own(r, u);
            return count + !r->turned;
        }
    } while (u != v);
    return to_top;
}

/* On from v to a destination from `done` on, whose final page is there. */
static uint32_t on(struct reading *r, uint32_t v, uint32_t done)
{
    uint32_t count = 0;
    do {
        v = r->row->to[v];
        r->pages[count++] = plain_coded(r, v);
    } while (r->row->to[v] < done);
    r->pages[count++] = plain_final(r, v);
    return count;
}

/* Whether the top of v's cycle is below a block. */
static int top_below(const struct row *row, uint32_t v, uint32_t block)
{
    uint32_t u = v;
    while (u < block) {
        u = row->to[u];
        if (u == v)
            return 1;
    }
    return 0;
}

/* The pages to sum for the original of block v. */
uint32_t plain_gather(struct reading *r, const struct moment *at, uint32_t v)
{
    uint32_t above = at->torn ? at->block : at->block - 1;
    if (at->forward) {
        if (v < above)
            return back(r, v, above);
        r->pages[0] = plain_own(r, v);
        return 1;
    }
    if (r->row->to[v] >= above) {
        r->pages[0] = plain_final(r, v);
        return 1;
    }
    return top_below(r->row, v, at->block) ? back(r, v, r->n) : on(r, v, above);
}

uint32_t plain_read(uint32_t n, uint32_t m, uint32_t page_bytes, uint32_t s,
                    const uint8_t *list, uint64_t list_len, const uint8_t *pins, uint64_t pins_len, const uint8_t *sets, uint64_t sets_len,
                    const uint8_t *store, uint64_t store_len, const uint8_t *marks, uint64_t marks_len,
                    uint8_t *work, uint64_t work_len, uint32_t original, uint32_t *count, uint32_t *written_bytes)
{
    struct sizes z = {n, m, page_bytes, s};
    struct moment at;
    struct reading r;
    struct list completed;
    struct row row;
    uint8_t set_of[ORIGINALS];
    uint32_t number = plain_refusal(&z, list, list_len, pins, pins_len, sets, sets_len, store_len, marks_len, work_len, WEAR_BYTES, &completed,
                                    set_of);
    *count = *written_bytes = 0;
    if (number != 0)
        return number;
    if (!plain_moment(&z, marks, &at))
        return 6;
    if (original >= n * m)
        return 7;
    if (drops(&completed, original)) {
        memset(work, ERASED, page_bytes);
        return 0;
    }
    r.store = store;
    r.turned = 0;
    r.n = n;
    r.m = m;
    r.p = page_bytes;
    r.set = sets[original];
    r.list = &completed;
    r.row = &row;
    plain_row(&row, &z, completed.whole, sets, r.set);
    *count = plain_gather(&r, &at, original / m);
    *written_bytes = plain_sum(work, r.pages, *count, r.turned, page_bytes);
    return 0;
}
