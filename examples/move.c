/* A move with a power cut in it: 3 blocks of 2 pages of 8 bytes. */
#include <mover.h>
#include <stdio.h>
#include <string.h>

enum { N = 3, M = 2, P = 8, S = 0 };

static const uint8_t pins[N * M] = {1, 0, 0, 1, 0, 0};                  /* pages 0 and 3 must stay */
static uint8_t list[2 * N * M], sets[N * M], store[(N + 1) * M * P], marks[(N + 1) * M], work[P], wear[MOVER_WEAR_BYTES];
static const struct mover_move move = {N, M, P, S, list, pins, sets, store, marks, work, wear};
static const uint32_t limit = 100000;                                   /* erases that a block stands */

int main(void)
{
    struct mover_state at;
    uint32_t k, count, bytes;

    memset(store, 255, sizeof store);                                   /* the spare is blank .. */
    memset(marks, 255, M);
    memset(marks + M, S, N * M);                                        /* .. and the data blocks are marked s */
    for (k = 0; k < N * M; k++) {
        memset(store + (M + k) * P, 'a' + (int)k, P);                   /* page k is full of one letter */
        mover_send(list, k, pins[k] ? k : (k + 3) % (N * M));           /* and stays or goes three pages on */
    }

    if (mover_split_move(&move) != MOVER_DONE || mover_run_move(&move, 0, 10, limit, &at) != MOVER_DONE)
        return 1;

    marks[3 * M + 1] = 255;                                             /* power fails inside the write of step 10 .. */
    memset(store + (3 * M + 1) * P, '?', P);                            /* .. and leaves anything on that page */

    if (mover_read_move(&move, 1, &count, &bytes) != MOVER_DONE)        /* every page can still be read */
        return 1;
    printf("page 1 is %.*s, the sum of %u stored pages\n", P, (const char *)work, (unsigned)count);

    if (mover_mend_move(&move, &at) != MOVER_DONE)                      /* power is back: recovery, then the rest */
        return 1;
    printf("recovery erased %u block, the move goes on at place %u\n", (unsigned)at.erases, (unsigned)at.place);
    if (mover_run_move(&move, at.place, UINT32_MAX, limit, &at) != MOVER_DONE || !at.finished)
        return 1;
    printf("the rest of the move programmed %u bytes that are not 255\n", (unsigned)at.written_bytes);
    for (k = 0; k <= N; k++)                                            /* the recovery's erase is counted too */
        printf("block %u has been erased %u times\n", (unsigned)k, (unsigned)mover_counter(wear, k));
    printf("%.*s\n", N * M * P, (const char *)store + M * P);
    return memcmp(store + M * P, "aaaaaaaaeeeeeeeeffffffffddddddddbbbbbbbbcccccccc", N * M * P) != 0;
}
