/* The chip gives up a page in the middle of a move: 3 blocks of 2 pages of 8 bytes, and what can be had of them without it. */
#include <mover.h>
#include <stdio.h>
#include <string.h>

enum { N = 3, M = 2, P = 8, S = 0, TORN = 2 * M };

static const uint8_t pins[N * M];
static uint8_t list[2 * N * M], sets[N * M], store[(N + 1) * M * P], marks[(N + 1) * M], work[P], wear[MOVER_WEAR_BYTES];
static uint8_t area[N * M * P], flags[N * M];
static const struct mover_move move = {N, M, P, S, list, pins, sets, store, marks, work, wear};

/* Rebuilds all that it can without the page of a slot, and prints it. Returns how many originals are lost. */
static int without(uint32_t slot)
{
    uint32_t k;
    int lost = 0;
    memset(store + slot * P, '#', P);                                   /* what the chip gives is of no use */
    if (mover_rebuild_move(&move, area, flags, slot) != MOVER_DONE)
        return -1;
    printf("without slot %u:", (unsigned)slot);
    for (k = 0; k < N * M; k++) {
        printf(" %.*s", P, flags[k] ? (const char *)area + k * P : "LOST");
        lost += !flags[k];
    }
    printf("\n");
    return lost;
}

int main(void)
{
    struct mover_state at;
    uint8_t kept[P];
    uint32_t k;
    int lost;

    memset(store, 255, sizeof store);                                   /* at rest: page k is full of one letter .. */
    memset(marks, 255, M);
    memset(marks + M, S, N * M);
    for (k = 0; k < N * M; k++) {
        memset(store + (M + k) * P, 'a' + (int)k, P);
        mover_send(list, k, (k + M) % (N * M));                         /* .. and goes to the next block */
    }
    if (mover_split_move(&move) != MOVER_DONE || mover_run_move(&move, 0, 5, UINT32_MAX, &at) != MOVER_DONE)
        return 1;

    memcpy(kept, store, P);
    lost = without(0);                                                  /* between two blocks there is a page to spare in each set */
    if (lost != 0 || memcmp(area, "aaaaaaaabbbbbbbbccccccccddddddddeeeeeeeeffffffff", sizeof area) != 0)
        return 1;
    memcpy(store, kept, P);

    marks[TORN] = 255;                                                  /* power fails inside the erase of block 2 .. */
    memset(store + TORN * P, '?', P);
    lost = without(TORN);                                               /* .. whose pages nothing depends on .. */
    if (lost != 0)
        return 1;
    lost = without(0);                                                  /* .. but now every other page counts */
    return lost != 2 || flags[0] || !flags[1] || flags[2] || memcmp(area + P, "bbbbbbbb", P) != 0 || area[0] != 255 || area[P - 1] != 255;
}
