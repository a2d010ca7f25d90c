/* The stored pages that a run reads, from C: worked moves step by step, at once, and the bounds. */
#include "calls.h"
#include "mover.h"

#include <string.h>

enum { X = MOVER_DROPPED, N = 64, M = 64 };

/* A move of pages of one byte with s = 0, at rest. */
static uint8_t list[2 * N * M], pins[N * M], sets[N * M], store[(N + 1) * M], marks[(N + 1) * M], work[1], wear[MOVER_WEAR_BYTES];

static struct mover_move at_rest(uint32_t n, uint32_t m)
{
    const struct mover_move move = {n, m, 1, 0, list, pins, sets, store, marks, work, wear};
    memset(store, 255, m);
    memset(store + m, 1, (uint64_t)n * m);
    memset(marks, 255, m);
    memset(marks + m, 0, (uint64_t)n * m);
    return move;
}

/* Three blocks of a page each, of which these writes read so many stored pages: step by step, and at once. */
static void costs(const char *what, const uint32_t *entries, const uint32_t *due)
{
    struct mover_move move = at_rest(3, 1);
    struct mover_state at;
    uint32_t k, place, sum = 0;
    for (k = 0; k < 3; k++)
        mover_send(list, k, entries[k]);
    check(what, mover_split_move(&move) == MOVER_DONE);
    for (place = 0; place < 12; place++) {
        uint32_t cost = place % 2 == 0 ? due[place / 2] : 0;
        at.pages_read = 77;
        check(what, mover_run_move(&move, place, 1, UINT32_MAX, &at) == MOVER_DONE && at.pages_read == cost);
        sum += cost;
    }
    move = at_rest(3, 1);
    check(what, mover_run_move(&move, 0, UINT32_MAX, UINT32_MAX, &at) == MOVER_DONE && at.finished && at.pages_read == sum);
    at.pages_read = 77;
    check(what, mover_mend_move(&move, &at) == MOVER_DONE && at.pages_read == 0);
    at.pages_read = 77;
    check(what, mover_run_move(&move, 13, 1, UINT32_MAX, &at) == MOVER_BAD_PLACE && at.pages_read == 0);
    at.pages_read = 77;
    check(what, mover_run_move(&move, 12, 1, UINT32_MAX, &at) == MOVER_DONE && at.pages_read == 0);
}

/* Every size at its limit. Page k goes so many pages on, round and round. */
static uint32_t whole(uint32_t further)
{
    const struct mover_move move = at_rest(N, M);
    struct mover_state at = {0};
    uint32_t k;
    for (k = 0; k < N * M; k++)
        mover_send(list, k, (k + further) % (N * M));
    check("the biggest list", mover_split_move(&move) == MOVER_DONE);
    check("the biggest move", mover_run_move(&move, 0, UINT32_MAX, UINT32_MAX, &at) == MOVER_DONE && at.finished);
    return at.pages_read;
}

/* The same move step by step. A page costs N where the backward pass begins, and no page costs more. */
static void each_page(void)
{
    const struct mover_move move = at_rest(N, M);
    struct mover_state at;
    uint32_t place, most = 0, sum = 0, refused = 0;
    for (place = 0; place < mover_last_place(N, M); place++) {
        refused += mover_run_move(&move, place, 1, UINT32_MAX, &at) != MOVER_DONE;
        most = at.pages_read > most ? at.pages_read : most;
        sum += at.pages_read;
    }
    check("every step is taken", refused == 0);
    check("one page reads n pages and none more", most == N);
    check("the steps read what the move does", sum == whole(M));
}

void pages_read_checked(void)
{
    static const uint32_t round[] = {1, 2, 0}, last[] = {1, 2, X}, middle[] = {1, X, 0}, all[] = {X, X, X};
    static const uint32_t of_round[] = {2, 3, 1, 3, 2, 2}, of_last[] = {1, 2, 0, 3, 2, 0}, of_middle[] = {2, 2, 1, 0, 2, 2};
    static const uint32_t none[6] = {0};
    costs("round a cycle", round, of_round);
    costs("its last page dropped", last, of_last);
    costs("its middle page dropped", middle, of_middle);
    costs("all dropped", all, none);
    check("each page stays: itself alone", whole(0) == 2 * N * M);
    check("one cycle of all blocks, within the bound", whole(M) <= 2 * N * N * M);
    each_page();
}
