/* The highest counter kept at hand, from C: the pair after each erase, and the pair made afresh. */
#include "calls.h"
#include "mover.h"

#include <string.h>

/* The step program's case, 3 blocks of one page of one byte with s = 0, at rest. */
struct shown {
    uint8_t list[6], pins[3], sets[3], store[4], marks[4], work[1], wear[MOVER_WEAR_BYTES];
    struct mover_move move;
};

static void set_pair(uint8_t *wear, uint32_t count, uint8_t block)
{
    mover_set_counter(wear, MOVER_COUNTERS, count);
    wear[MOVER_WEAR_BYTES - 1] = block;
}

static void begin(struct shown *shown, uint32_t all, uint32_t count, uint8_t block)
{
    const struct mover_move move = {3, 1, 1, 0, shown->list, shown->pins, shown->sets, shown->store, shown->marks, shown->work, shown->wear};
    uint32_t k;
    memset(shown, 0, sizeof *shown);
    shown->store[0] = shown->marks[0] = 255;
    for (k = 0; k < 3; k++) {
        mover_send(shown->list, k, (k + 1) % 3);
        shown->store[1 + k] = (uint8_t)(1 << k);
    }
    for (k = 0; k < MOVER_COUNTERS; k++)
        mover_set_counter(shown->wear, k, all);
    set_pair(shown->wear, count, block);
    shown->move = move;
}

static int shows(const struct shown *shown, uint32_t count, uint32_t block)
{
    return mover_highest_count(shown->wear) == count && mover_highest_block(shown->wear) == block;
}

/* The blocks erased are 1 2 3 2 1 0, and then 0 by a recovery. */
static void steps_checked(void)
{
    static const uint32_t counts[] = {1, 1, 1, 2, 2, 2}, blocks[] = {1, 1, 1, 2, 1, 1};
    struct shown shown;
    struct mover_state at;
    uint32_t i;
    begin(&shown, 0, 0, 0);
    for (i = 0; i < 6; i++) {
        check("a write leaves the pair", mover_run_move(&shown.move, 2 * i, 1, 9, &at) == MOVER_DONE
                                             && shows(&shown, i == 0 ? 0 : counts[i - 1], i == 0 ? 0 : blocks[i - 1]));
        check("an erase brings it up to date", mover_run_move(&shown.move, 2 * i + 1, 1, 9, &at) == MOVER_DONE
                                                   && shows(&shown, counts[i], blocks[i]));
    }
    check("an equal count at a lower block", mover_mend_move(&shown.move, &at) == MOVER_DONE && shows(&shown, 2, 0));
    check("a higher count", mover_mend_move(&shown.move, &at) == MOVER_DONE && shows(&shown, 3, 0));
}

/* A whole move from a pair that may be wrong. */
static void moves_to(const char *what, uint32_t all, uint32_t count, uint8_t block, uint32_t due_count, uint32_t due_block)
{
    struct shown shown;
    struct mover_state at;
    begin(&shown, 0, 0, 0);
    check("to place 1", mover_run_move(&shown.move, 0, 1, 9, &at) == MOVER_DONE);
    for (uint32_t k = 0; k < MOVER_COUNTERS; k++)
        mover_set_counter(shown.wear, k, all);
    set_pair(shown.wear, count, block);
    check(what, mover_run_move(&shown.move, 1, UINT32_MAX, 0, &at) == MOVER_DONE && at.finished && shows(&shown, due_count, due_block));
}

static void pairs_checked(void)
{
    moves_to("from a right pair", 5, 5, 0, 7, 1);
    moves_to("a pair too high stays", 5, 9, 200, 9, 200);
    moves_to("a pair too low is caught up with", 5, 1, 200, 7, 1);
    moves_to("an equal count, and a lower block", 5, 7, 200, 7, 1);
    moves_to("an equal count, but a higher block", 5, 7, 0, 7, 0);
    moves_to("full counters count too", UINT32_MAX, UINT32_MAX, 2, UINT32_MAX, 0);
}

static void refreshes_to(const char *what, uint32_t high, uint32_t block, uint32_t other, uint32_t due_block)
{
    uint8_t wear[MOVER_WEAR_BYTES + 1], counters[4 * MOVER_COUNTERS];
    memset(wear, 0, sizeof wear);
    wear[MOVER_WEAR_BYTES] = 99;
    mover_set_counter(wear, block, high);
    mover_set_counter(wear, other, high);
    set_pair(wear, 77, 77);
    memcpy(counters, wear, sizeof counters);
    check(what, mover_wear_refresh(wear, MOVER_WEAR_BYTES) == MOVER_DONE && mover_highest_count(wear) == high
                    && mover_highest_block(wear) == due_block && memcmp(wear, counters, sizeof counters) == 0 && wear[MOVER_WEAR_BYTES] == 99);
}

static void refreshes_checked(void)
{
    uint8_t wear[MOVER_WEAR_BYTES + 1] = {1};
    refreshes_to("zeros", 0, 3, 4, 0);
    refreshes_to("one block", 9, 3, 3, 3);
    refreshes_to("the lower of two", 9, 64, 3, 3);
    refreshes_to("the last block", UINT32_MAX, 64, 64, 64);
    refreshes_to("the spare", UINT32_C(0x01020304), 0, 64, 0);
    set_pair(wear, 77, 77);
    check("counters alone", mover_wear_refresh(wear, 260) == MOVER_BAD_LENGTH);
    check("a record too short", mover_wear_refresh(wear, 264) == MOVER_BAD_LENGTH);
    check("a record too long", mover_wear_refresh(wear, 266) == MOVER_BAD_LENGTH);
    check("no record", mover_wear_refresh(NULL, 0) == MOVER_BAD_LENGTH);
    check("nothing changed", mover_highest_count(wear) == 77 && mover_highest_block(wear) == 77);
}

void highest_checked(void)
{
    steps_checked();
    pairs_checked();
    refreshes_checked();
}
