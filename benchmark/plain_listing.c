/* The check of another mover's listing by hand. Pages are masks of originals; a row of the basis is stored by its lowest bit. */
#include "plain.h"
#include "plain_inner.h"

enum { MOST_ORIGINALS = 64, MOST_SLOTS = 128 };

struct text {
    const uint8_t *at, *end;
};

static int passes(struct text *t, uint8_t byte)
{
    if (t->at == t->end || *t->at != byte)
        return 0;
    t->at++;
    return 1;
}

/* Numbers from 2^60 on count as that. */
static int number(struct text *t, uint64_t *value)
{
    const uint8_t *first = t->at;
    uint64_t v = 0;
    while (t->at != t->end && (uint8_t)(*t->at - '0') <= 9) {
        v = v >= UINT64_C(1) << 56 ? UINT64_C(1) << 60 : v * 10 + (uint8_t)(*t->at - '0');
        t->at++;
    }
    *value = v;
    return t->at != first && (t->at - first == 1 || *first != '0');
}

static int field(struct text *t, uint64_t *value)
{
    return passes(t, ' ') && number(t, value);
}

/* All originals are determined if the pages span as many dimensions as there are originals. */
static int determined(const uint64_t *pages, uint32_t slots, uint32_t originals)
{
    uint64_t basis[MOST_ORIGINALS];
    uint32_t rank = 0;
    memset(basis, 0, sizeof basis);
    for (uint32_t t = 0; t < slots; t++) {
        uint64_t mask = pages[t];
        while (mask != 0) {
            int i = __builtin_ctzll(mask);
            if (basis[i] == 0) {
                basis[i] = mask;
                rank++;
                break;
            }
            mask ^= basis[i];
        }
    }
    return rank == originals;
}

static int originals_of(struct text *t, uint32_t originals, uint64_t *mask)
{
    uint64_t least = 0, k;
    *mask = 0;
    while (t->at != t->end && *t->at == ' ') {
        if (!field(t, &k) || k < least || k >= originals)
            return 0;
        *mask |= UINT64_C(1) << k;
        least = k + 1;
    }
    return least > 0;
}

/* Whether the page is blank, and those above it in its block. */
static int writable(const uint64_t *block, uint32_t m, uint64_t page)
{
    uint64_t any = 0;
    for (; page < m; page++)
        any |= block[page];
    return any == 0;
}

static int requested(const uint64_t *pages, uint32_t n, uint32_t m, const uint8_t *list)
{
    uint64_t wrong = 0;
    for (uint32_t t = 0; t < m; t++)
        wrong |= pages[t];
    for (uint32_t k = 0; k < n * m; k++)
        wrong |= pages[m + entry(list, k)] ^ UINT64_C(1) << k;
    return wrong == 0;
}

/* 0 where the line is sound, -1 where it is the end line, or the number. */
static int one_line(struct text *t, uint32_t n, uint32_t m, uint64_t *pages, uint64_t counts[2], uint64_t told[2])
{
    uint64_t step, block, page, mask;
    if (t->end - t->at > 3 && memcmp(t->at, "end", 3) == 0) {
        t->at += 3;
        return field(t, &told[0]) && field(t, &told[1]) && passes(t, '\n') ? -1 : 13;
    }
    if (!number(t, &step) || step != counts[0] + counts[1] || !passes(t, ' ') || t->at == t->end)
        return 13;
    if (*t->at == 'W') {
        t->at++;
        if (!field(t, &block) || block > n || !field(t, &page) || page >= m || !originals_of(t, n * m, &mask) || !passes(t, '\n'))
            return 13;
        if (!writable(pages + block * m, m, page))
            return 14;
        pages[block * m + page] = mask;
        counts[0]++;
        return 0;
    }
    if (!passes(t, 'E') || !field(t, &block) || block > n || !passes(t, '\n'))
        return 13;
    memset(pages + block * m, 0, m * sizeof *pages);
    if (!determined(pages, (n + 1) * m, n * m))
        return 15;
    counts[1]++;
    return 0;
}

uint32_t plain_check_listing(uint32_t n, uint32_t m, const uint8_t *list, uint64_t list_len, const uint8_t *text, uint64_t text_len,
                             uint32_t *line, uint32_t *accepted)
{
    uint64_t pages[MOST_SLOTS], counts[2] = {0, 0}, told[2], seen = 0;
    struct text t = {text, text + text_len};
    *line = *accepted = 0;
    if (n - 1 >= BLOCKS || m - 1 >= PAGES || n * m > MOST_ORIGINALS)
        return 1;
    if (list_len != 2 * (uint64_t)n * m)
        return 2;
    for (uint32_t k = 0; k < n * m; k++) {
        if (entry(list, k) >= n * m || (seen >> entry(list, k) & 1) != 0)
            return 3;
        seen |= UINT64_C(1) << entry(list, k);
    }
    memset(pages, 0, sizeof pages);
    for (uint32_t k = 0; k < n * m; k++)
        pages[m + k] = UINT64_C(1) << k;
    while (t.at != t.end) {
        int found = one_line(&t, n, m, pages, counts, told);
        if (found == -1) {
            if (t.at != t.end) {
                *line = (uint32_t)(counts[0] + counts[1] + 2);
                return 13;
            }
            *accepted = told[0] == counts[0] && told[1] == counts[1] && requested(pages, n, m, list);
            return 0;
        }
        if (found != 0) {
            *line = (uint32_t)(counts[0] + counts[1] + 1);
            return (uint32_t)found;
        }
    }
    return 0;
}
