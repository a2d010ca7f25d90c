/* Run by hand. Every step is really taken, in order: a cut inside the call must find what the steps before it left. */
#include "plain.h"
#include "plain_inner.h"

struct running {
    struct sizes z;
    const uint8_t *sets;
    uint8_t *store, *marks, *wear;
    uint32_t turn, filled;                 /* the place: turns of m + 1 steps, and the pages written in this one */
    int all_rows;                          /* whether all rows are made; if not, each write makes its own */
    const uint8_t *last;                   /* the page written last */
    uint32_t bytes;                        /* of all pages written, those that are not 255 */
    uint32_t reads;                        /* the pages summed for them */
    int turned;                            /* whether the page to be written has 255s in its sum */
    struct list list;
    uint8_t set_of[ORIGINALS];
    struct row rows[PAGES];
};

static uint8_t *slot(const struct running *r, uint32_t number)
{
    return r->store + (uint64_t)number * r->z.p;
}

static const struct row *row_of(struct running *r, uint32_t set)
{
    if (!r->all_rows)
        plain_row(&r->rows[set], &r->z, r->list.whole, r->sets, set);
    return &r->rows[set];
}

/* The block of the store that is being filled. */
static uint32_t filling(const struct running *r)
{
    return r->turn < r->z.n ? r->turn : 2 * r->z.n - r->turn;
}

/* Whether the marks are those of the place, and its blank pages blank. */
static int stands(const struct running *r)
{
    const struct sizes *z = &r->z;
    int forward = r->turn < z->n;
    uint32_t block = filling(r), first = block * z->m, blank = first + r->filled, above = first + z->m;
    return all_are(r->marks, first, letter(z, 1)) && all_are(r->marks + first, r->filled, letter(z, forward ? 1 : 2))
        && all_are(r->marks + blank, above - blank, ERASED)
        && all_are(r->marks + above, (z->n - block) * z->m, letter(z, forward ? 0 : 2))
        && all_are(slot(r, blank), (uint64_t)(above - blank) * z->p, ERASED);
}

static int dropped(const struct running *r, const struct row *row, uint32_t v)
{
    return drops(&r->list, v * r->z.m + row->page[v]);
}

/* The plain page of data block v is one more, unless it is dropped. */
static uint32_t add_plain(struct running *r, const struct row *row, uint32_t v, const uint8_t **pages, uint32_t count)
{
    if (dropped(r, row, v)) {
        r->turned = !r->turned;
        return count;
    }
    pages[count] = slot(r, (v + 1) * r->z.m + row->page[v]);
    return count + 1;
}

/* The pages of the sum that block f gets for a set in the first pass: the plain page of data block f, and its predecessor's, back
 * over coded pages to a plain one. If the walk comes round to f, that is the top. Of a predecessor that is dropped nothing is looked at. */
static uint32_t coded_pages(struct running *r, uint32_t f, uint32_t set, const uint8_t **pages)
{
    const struct row *row = row_of(r, set);
    uint32_t m = r->z.m, own = add_plain(r, row, f, pages, 0), count = own, v;
    for (v = row->from[f]; v < f; v = row->from[v])
        pages[count++] = slot(r, v * m + set);
    if (v == f)
        return own;
    if (dropped(r, row, row->from[f])) {
        r->turned = !r->turned;
        return own;
    }
    return add_plain(r, row, v, pages, count);
}

/* Those of the final page of data block b: coded pages on from b to a block above it, and the final page there. If the walk comes
 * round to b, that is the top, and the coded pages are all. */
static uint32_t final_pages(struct running *r, uint32_t b, uint32_t set, const uint8_t **pages)
{
    const struct row *row = row_of(r, set);
    uint32_t m = r->z.m, count = 0, v = b, last;
    if (dropped(r, row, row->from[b])) {
        r->turned = 1;
        return 0;
    }
    do {
        pages[count++] = slot(r, v * m + set);
        last = v;
        v = row->to[v];
    } while (v < b);
    if (v > b)
        pages[count++] = slot(r, m + entry(r->list.whole, last * m + row->page[last]));
    return count;
}

/* Writes the pages of a block up to `stop`. */
static void write_pages(struct running *r, uint32_t stop)
{
    const uint8_t *pages[BLOCKS + 1];
    uint32_t block = filling(r), first = block * r->z.m;
    int forward = r->turn < r->z.n;
    uint8_t mark = letter(&r->z, forward ? 1 : 2);
    for (; r->filled < stop; r->filled++) {
        uint32_t at = first + r->filled, count;
        r->turned = 0;
        count = forward ? coded_pages(r, block, r->filled, pages) : final_pages(r, block - 1, r->set_of[at - r->z.m], pages);
        r->bytes += plain_sum(slot(r, at), pages, count, r->turned, r->z.p);
        r->reads += count;
        r->marks[at] = mark;
        r->last = slot(r, at);
    }
}

/* Takes so many steps and returns how many of them were erases. */
static uint32_t take_steps(struct running *r, uint32_t steps)
{
    uint32_t m = r->z.m, erases = 0;
    while (steps > 0) {
        uint32_t writes = m - r->filled < steps ? m - r->filled : steps;
        write_pages(r, r->filled + writes);
        steps -= writes;
        if (steps > 0) {
            plain_erase(&r->z, r->store, r->marks, r->wear, r->turn < r->z.n ? filling(r) + 1 : filling(r) - 1);
            erases++;
            steps--;
            r->turn++;
            r->filled = 0;
        }
    }
    return erases;
}

uint32_t plain_run(uint32_t n, uint32_t m, uint32_t page_bytes, uint32_t s,
                   const uint8_t *list, uint64_t list_len, const uint8_t *pins, uint64_t pins_len, const uint8_t *sets, uint64_t sets_len,
                   uint8_t *store, uint64_t store_len, uint8_t *marks, uint64_t marks_len, uint8_t *work, uint64_t work_len,
                   uint8_t *wear, uint64_t wear_len, uint32_t place, uint32_t budget, uint32_t wear_limit,
                   uint32_t *place_reached, uint32_t *steps, uint32_t *writes, uint32_t *erases, uint32_t *finished,
                   uint32_t *written_bytes, uint32_t *pages_read)
{
    struct running r;
    uint32_t end, taken, number;
    *place_reached = *steps = *writes = *erases = *finished = *written_bytes = *pages_read = 0;
    r.z = (struct sizes){n, m, page_bytes, s};
    number = plain_refusal(&r.z, list, list_len, pins, pins_len, sets, sets_len, store_len, marks_len, work_len, wear_len, &r.list,
                           r.set_of);
    if (number != 0)
        return number;
    end = 2 * n * (m + 1);
    if (place > end)
        return 5;
    r.sets = sets;
    r.store = store;
    r.marks = marks;
    r.wear = wear;
    r.last = NULL;
    r.bytes = r.reads = 0;
    r.turn = place / (m + 1);
    r.filled = place % (m + 1);
    if (!stands(&r))
        return 5;
    if (place == 0 && plain_worn(&r.z, wear, wear_limit))
        return 12;
    taken = budget < end - place ? budget : end - place;
    r.all_rows = taken > m / 8 + 1;
    if (r.all_rows)
        plain_rows(r.rows, &r.z, r.list.whole, sets);
    *erases = take_steps(&r, taken);
    if (r.last != NULL)
        memcpy(work, r.last, page_bytes);
    *place_reached = place + taken;
    *steps = taken;
    *writes = taken - *erases;
    *finished = place + taken == end;
    *written_bytes = r.bytes;
    *pages_read = r.reads;
    return 0;
}
