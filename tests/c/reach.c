/* How far one changed page reaches: two moves, side by side, of stores that differ in one original. At every place the pages that differ are
 * those where the original lies by the rules, computed here from the list, the sets and the marks, and they do so at its own offsets. */
#include "calls.h"
#include "mover.h"

#include <string.h>

enum { N = 8, M = 6, P = 7, K = N * M, SLOTS = (N + 1) * M };

static uint32_t state = 2463534242u;

static uint32_t below(uint32_t bound)
{
    state ^= state << 13;
    state ^= state >> 17;
    state ^= state << 5;
    return state % bound;
}

/* One list, and two stores that are moved by it. */
struct pair {
    uint32_t n, m, p, s, entry[K], to[K];
    uint8_t list[2 * K], pins[K], sets[K], before[2][P], store[2][SLOTS * P], marks[2][SLOTS], work[2][P], wear[2][MOVER_WEAR_BYTES];
    struct mover_move move[2];
};

/* Where each page goes: dropped ones, ascending, to the places that nobody fills, ascending. */
static void complete(struct pair *pair)
{
    uint32_t k, free = 0, kept[K] = {0};
    for (k = 0; k < pair->n * pair->m; k++)
        if (pair->entry[k] != MOVER_DROPPED)
            kept[pair->entry[k]] = 1;
    for (k = 0; k < pair->n * pair->m; k++) {
        pair->to[k] = pair->entry[k];
        if (pair->entry[k] == MOVER_DROPPED) {
            while (kept[free])
                free++;
            pair->to[k] = free++;
        }
    }
}

static int begin(struct pair *pair, uint32_t n, uint32_t m, uint32_t p, uint32_t s, const uint32_t *entry)
{
    uint32_t k, i;
    memset(pair, 0, sizeof *pair);
    pair->n = n;
    pair->m = m;
    pair->p = p;
    pair->s = s;
    memcpy(pair->entry, entry, n * m * sizeof *entry);
    complete(pair);
    for (k = 0; k < n * m; k++) {
        mover_send(pair->list, k, entry[k]);
        pair->pins[k] = (uint8_t)(entry[k] == k && below(2) ? 1 + below(255) : 0);
    }
    for (i = 0; i < 2; i++) {
        const struct mover_move move = {n, m, p, s, pair->list, pair->pins, pair->sets, pair->store[i], pair->marks[i], pair->work[i], pair->wear[i]};
        pair->move[i] = move;
    }
    return mover_split_move(&pair->move[0]) == MOVER_DONE;
}

/* Both stores at rest with the same pages, but for some bytes of page k: at least one. */
static void rest(struct pair *pair, uint32_t k)
{
    uint32_t m = pair->m, p = pair->p, data = pair->n * m, j, sure = below(p), i;
    for (j = 0; j < (data + m) * p; j++)
        pair->store[0][j] = (uint8_t)(j < m * p ? 255 : below(256));
    memset(pair->marks[0], 255, m);
    memset(pair->marks[0] + m, (int)pair->s, data);
    memcpy(pair->store[1], pair->store[0], sizeof pair->store[0]);
    memcpy(pair->marks[1], pair->marks[0], sizeof pair->marks[0]);
    for (j = 0; j < p; j++)
        if (j == sure || below(2))
            pair->store[1][(m + k) * p + j] ^= (uint8_t)(1 + below(255));
    for (i = 0; i < 2; i++)
        memcpy(pair->before[i], pair->store[i] + (m + k) * p, p);
}

/* The block, from 1, where the page of a set from a block goes. */
static uint32_t destination(const struct pair *pair, uint32_t set, uint32_t block)
{
    uint32_t k = (block - 1) * pair->m;
    while (pair->sets[k] != set)
        k++;
    return pair->to[k] / pair->m + 1;
}

static int is_top(const struct pair *pair, uint32_t set, uint32_t block)
{
    uint32_t i, on = block, high = block;
    for (i = 0; i < pair->n; i++) {
        on = destination(pair, set, on);
        high = on > high ? on : high;
    }
    return high == block;
}

/* 1 if page k lies in the slot, by the slot's mark. */
static int lies(const struct pair *pair, uint32_t k, uint32_t slot)
{
    uint32_t m = pair->m, s = pair->s, set = pair->sets[k], v = k / m + 1, u = destination(pair, set, v), mark = pair->marks[0][slot];
    if (mark == s)
        return slot == m + k;
    if (mark == (s + 1) % 3)
        return slot == (v - 1) * m + set || (slot == (u - 1) * m + set && !is_top(pair, set, u));
    return mark == (s + 2) % 3 && slot == m + pair->to[k];
}

/* The number of slots that differ; more than there are if some slot, offset or mark is not as it should be. */
static uint32_t differences(const struct pair *pair, uint32_t k)
{
    uint32_t p = pair->p, slots = (pair->n + 1) * pair->m, t, j, count = 0;
    if (memcmp(pair->marks[0], pair->marks[1], slots) != 0)
        return SLOTS + 1;
    for (t = 0; t < slots; t++) {
        int there = lies(pair, k, t);
        for (j = 0; j < p; j++)
            if ((pair->store[0][t * p + j] != pair->store[1][t * p + j]) != (there && pair->before[0][j] != pair->before[1][j]))
                return SLOTS + 1;
        count += (uint32_t)there;
    }
    return count;
}

/* The most slots that differ at a place. One move goes step by step, the other by budgets at random, so they are compared where both stop. */
static uint32_t reach(struct pair *pair, uint32_t k)
{
    uint32_t last = mover_last_place(pair->n, pair->m), most = 0, by_budgets = below(2), budget, count, i;
    struct mover_state at = {0}, other = {0};
    rest(pair, k);
    while (at.place < last) {
        budget = by_budgets ? 1 + below(2 * pair->m) : 1;
        if (mover_run_move(&pair->move[1], other.place, budget, UINT32_MAX, &other) != MOVER_DONE)
            return SLOTS + 1;
        for (i = at.place; i < other.place; i++)
            if (mover_run_move(&pair->move[0], i, 1, UINT32_MAX, &at) != MOVER_DONE || at.place != i + 1)
                return SLOTS + 1;
        count = differences(pair, k);
        most = count > most ? count : most;
    }
    return differences(pair, k) == 1 && lies(pair, k, pair->m + pair->to[k]) ? most : SLOTS + 1;
}

static uint32_t worst;

static void reaches(uint32_t n, uint32_t m, const uint32_t *entry)
{
    static struct pair pair;
    uint32_t k, most = 0, one;
    int good = begin(&pair, n, m, 1 + below(P), below(3), entry);
    for (k = 0; good && k < n * m; k++)
        if (entry[k] != MOVER_DROPPED) {
            one = reach(&pair, k);
            most = one > most ? one : most;
        }
    check("the pages that one page reaches", good && most <= 3);
    worst = most > worst ? most : worst;
}

/* The next list in dictionary order; 0 after the last. */
static int next_list(uint32_t *entry, uint32_t count)
{
    uint32_t i = count - 1, j = count - 1, swap;
    while (i > 0 && entry[i - 1] > entry[i])
        i--;
    if (i == 0)
        return 0;
    while (entry[j] < entry[i - 1])
        j--;
    swap = entry[i - 1];
    entry[i - 1] = entry[j];
    entry[j] = swap;
    for (j = count - 1; i < j; i++, j--) {
        swap = entry[i];
        entry[i] = entry[j];
        entry[j] = swap;
    }
    return 1;
}

/* Every list of so few pages, with every choice of dropped ones. */
static void all_lists(uint32_t n, uint32_t m)
{
    uint32_t entry[4], with_drops[4], k, drops;
    for (k = 0; k < n * m; k++)
        entry[k] = k;
    do
        for (drops = 0; drops < 1u << n * m; drops++) {
            for (k = 0; k < n * m; k++)
                with_drops[k] = drops >> k & 1 ? (uint32_t)MOVER_DROPPED : entry[k];
            reaches(n, m, with_drops);
        }
    while (next_list(entry, n * m));
}

static void random_list(void)
{
    uint32_t entry[K], n = 1 + below(N), m = 1 + below(M), k, j, swap, drops = below(4);
    for (k = 0; k < n * m; k++)
        entry[k] = k;
    for (k = n * m; k > 1 + below(2) * (n * m / 2); k--) {
        j = below(k);
        swap = entry[k - 1];
        entry[k - 1] = entry[j];
        entry[j] = swap;
    }
    for (; drops > 0; drops--)
        entry[below(n * m)] = MOVER_DROPPED;
    reaches(n, m, entry);
}

void reach_checked(void)
{
    static const uint32_t sizes[8][2] = {{1, 1}, {1, 2}, {2, 1}, {1, 3}, {3, 1}, {1, 4}, {2, 2}, {4, 1}};
    uint32_t i;
    for (i = 0; i < 8; i++)
        all_lists(sizes[i][0], sizes[i][1]);
    for (i = 0; i < 200; i++)
        random_list();
    check("three pages at once are met", worst == 3);
}
