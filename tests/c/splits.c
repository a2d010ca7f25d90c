/* What split answers for 10,000 lists, the same ones each time: for each the sizes, the number returned and the set bytes, to standard output.
 * Built with the libraries of two commits it tells whether their answers differ. */
#include "mover.h"

#include <stdio.h>
#include <string.h>

enum { LISTS = 10000, PAGES = 64 * 64 };

static uint64_t state = 1;

/* A number below a limit, by xorshift. */
static uint32_t below(uint32_t limit)
{
    state ^= state << 13;
    state ^= state >> 7;
    state ^= state << 17;
    return (uint32_t)(state >> 32) % limit;
}

/* The destinations of a list: any order; page p of block i to block p; all pages some places on; all but some pages in order. */
static void make(uint16_t *to, uint32_t n, uint32_t m, uint32_t kind)
{
    uint32_t pages = n * m, by = below(pages), swaps = kind == 0 ? pages : kind == 3 ? 1 + pages / 8 : 0, k, other;
    uint16_t kept;
    for (k = 0; k < pages; k++)
        to[k] = (uint16_t)(kind == 1 ? k % m * n + k / m : kind == 2 ? (k + by) % pages : k);
    for (k = 0; k < swaps; k++) {
        other = k + below(pages - k);
        kept = to[k];
        to[k] = to[other];
        to[other] = kept;
    }
}

int main(void)
{
    static uint16_t to[PAGES];
    static uint8_t list[2 * PAGES], pins[PAGES], sets[PAGES];
    struct mover_move move = {.page_bytes = 1, .list = list, .pins = pins, .sets = sets};
    uint32_t i, k;
    uint8_t head[3];
    for (i = 0; i < LISTS; i++) {
        /* each pair of sizes once; then any, and every fourth time the biggest */
        move.n = i < PAGES ? i / 64 + 1 : i % 4 == 0 ? 64 : 1 + below(64);
        move.m = i < PAGES ? i % 64 + 1 : i % 4 == 0 ? 64 : 1 + below(64);
        make(to, move.n, move.m, below(4));
        if (i % 50 == 49) /* one number twice, or one that is no page */
            to[below(move.n * move.m)] = (uint16_t)below(move.n * move.m + 1);
        for (k = 0; k < move.n * move.m; k++)
            mover_send(list, k, to[k]);
        memset(sets, 170, sizeof sets);
        head[0] = (uint8_t)move.n;
        head[1] = (uint8_t)move.m;
        head[2] = (uint8_t)mover_split_move(&move);
        if (fwrite(head, 1, 3, stdout) != 3 || fwrite(sets, 1, sizeof sets, stdout) != sizeof sets)
            return 1;
    }
    return fflush(stdout) != 0;
}
