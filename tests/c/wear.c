/* Erase counters from C: what runs and recoveries count, and the limit that a move has to keep. */
#include "calls.h"
#include "mover.h"

#include <string.h>

/* The step program's case, 3 blocks of one page of one byte with s = 0, at rest, and a byte behind the record that must stay. */
struct worn {
    uint8_t list[6], pins[3], sets[3], store[4], marks[4], work[1], wear[MOVER_WEAR_BYTES + 1];
    struct mover_move move;
};

static void begin(struct worn *worn, const uint32_t *counters)
{
    const struct mover_move move = {3, 1, 1, 0, worn->list, worn->pins, worn->sets, worn->store, worn->marks, worn->work, worn->wear};
    uint32_t k;
    memset(worn, 0, sizeof *worn);
    worn->store[0] = worn->marks[0] = 255;
    for (k = 0; k < 3; k++) {
        mover_send(worn->list, k, (k + 1) % 3);
        worn->store[1 + k] = (uint8_t)(1 << k);
    }
    for (k = 0; k < 5; k++)
        mover_set_counter(worn->wear, k, counters[k]);
    worn->wear[MOVER_WEAR_BYTES] = 99;
    worn->move = move;
}

/* The first five counters are these, and the others 0. */
static int counts(const struct worn *worn, uint32_t c0, uint32_t c1, uint32_t c2, uint32_t c3, uint32_t c4)
{
    const uint32_t due[5] = {c0, c1, c2, c3, c4};
    uint32_t block;
    for (block = 0; block < MOVER_COUNTERS; block++)
        if (mover_counter(worn->wear, block) != (block < 5 ? due[block] : 0))
            return 0;
    return worn->wear[MOVER_WEAR_BYTES] == 99;
}

static const uint32_t none[5];

static void bytes_checked(void)
{
    static const uint8_t due[8] = {1, 2, 3, 4, 255, 254, 253, 252};
    uint8_t wear[MOVER_WEAR_BYTES] = {0};
    mover_set_counter(wear, 63, UINT32_C(0x04030201));
    mover_set_counter(wear, 64, UINT32_C(0xFCFDFEFF));
    check("the length of a record", sizeof wear == 265);
    check("counters, low byte first", memcmp(wear + 252, due, 8) == 0 && mover_counter(wear, 63) == UINT32_C(0x04030201)
                                          && mover_counter(wear, 64) == UINT32_C(0xFCFDFEFF) && mover_counter(wear, 62) == 0);
}

static void moves_checked(void)
{
    static const uint32_t some[] = {10, 255, 65535, 40, 50};
    static const uint32_t erased[] = {1, 2, 3, 2, 1, 0};
    struct worn worn;
    struct mover_state at;
    uint32_t due[5] = {0, 0, 0, 0, 0}, i;
    begin(&worn, some);
    check("a whole move", mover_run_move(&worn.move, 0, UINT32_MAX, UINT32_MAX, &at) == MOVER_DONE && at.erases == 6);
    check("its counters", counts(&worn, 11, 257, 65537, 41, 50));
    check("a recovery after it", mover_mend_move(&worn.move, &at) == MOVER_DONE && at.erases == 1 && counts(&worn, 12, 257, 65537, 41, 50));
    begin(&worn, none);
    for (i = 0; i < 6; i++) {
        check("a write counts none", mover_run_move(&worn.move, 2 * i, 1, UINT32_MAX, &at) == MOVER_DONE
                                         && counts(&worn, due[0], due[1], due[2], due[3], due[4]));
        due[erased[i]]++;
        check("an erase counts one", mover_run_move(&worn.move, 2 * i + 1, 1, UINT32_MAX, &at) == MOVER_DONE
                                         && counts(&worn, due[0], due[1], due[2], due[3], due[4]));
    }
    begin(&worn, none);
    check("to place 3", mover_run_move(&worn.move, 0, 3, UINT32_MAX, &at) == MOVER_DONE && counts(&worn, 0, 1, 0, 0, 0));
    check("a recovery without erase", mover_mend_move(&worn.move, &at) == MOVER_DONE && at.erases == 0 && counts(&worn, 0, 1, 0, 0, 0));
    worn.marks[2] = 255;
    check("a recovery with one", mover_mend_move(&worn.move, &at) == MOVER_DONE && at.place == 4 && counts(&worn, 0, 1, 1, 0, 0));
}

/* Erases are done and reported also where the counter stays. */
static void full_checked(void)
{
    static const uint32_t high[] = {UINT32_MAX, UINT32_MAX, UINT32_MAX - 1, UINT32_MAX - 1, UINT32_MAX};
    struct worn worn;
    struct mover_state at;
    begin(&worn, none);
    check("to place 1", mover_run_move(&worn.move, 0, 1, 2, &at) == MOVER_DONE);
    for (uint32_t block = 0; block < 5; block++)
        mover_set_counter(worn.wear, block, high[block]);
    check("the rest", mover_run_move(&worn.move, 1, UINT32_MAX, 0, &at) == MOVER_DONE && at.finished && at.erases == 6);
    check("full counters", counts(&worn, UINT32_MAX, UINT32_MAX, UINT32_MAX, UINT32_MAX, UINT32_MAX));
    check("and a recovery", mover_mend_move(&worn.move, &at) == MOVER_DONE && at.erases == 1
                                && counts(&worn, UINT32_MAX, UINT32_MAX, UINT32_MAX, UINT32_MAX, UINT32_MAX));
}

/* From place 0 this record and this limit give the number, with every budget; a refusal leaves all as it was. */
static void limit_gives(const char *what, uint32_t limit, uint32_t number, uint32_t c0, uint32_t c1, uint32_t c2, uint32_t c3, uint32_t c4)
{
    static const uint32_t budgets[] = {0, 1, UINT32_MAX};
    const uint32_t counters[5] = {c0, c1, c2, c3, c4};
    uint32_t i;
    for (i = 0; i < 3; i++) {
        struct worn worn, before;
        struct mover_state at = {77, 77, 77, 77, 77, 77, 77};
        uint32_t got;
        begin(&worn, counters);
        memcpy(&before, &worn, sizeof worn);
        got = mover_run_move(&worn.move, 0, budgets[i], limit, &at);
        check(what, got == number && (got == MOVER_DONE || (at.place == 0 && at.steps == 0 && at.erases == 0 && at.finished == 0
                                                            && memcmp(&before, &worn, sizeof worn) == 0)));
    }
}

static void limits_checked(void)
{
    limit_gives("a new module, limit 2", 2, MOVER_DONE, 0, 0, 0, 0, 0);
    limit_gives("a new module, limit 1", 1, MOVER_BAD_WEAR, 0, 0, 0, 0, 0);
    limit_gives("each block just keeps the limit", 10, MOVER_DONE, 9, 8, 8, 9, 10);
    limit_gives("block 0 passes it", 10, MOVER_BAD_WEAR, 10, 8, 8, 9, 0);
    limit_gives("block 1 passes it", 10, MOVER_BAD_WEAR, 9, 9, 8, 9, 0);
    limit_gives("block 2 passes it", 10, MOVER_BAD_WEAR, 9, 8, 9, 9, 0);
    limit_gives("block n passes it", 10, MOVER_BAD_WEAR, 9, 8, 8, 10, 0);
    limit_gives("block n + 1 does not count", 10, MOVER_DONE, 9, 8, 8, 9, UINT32_MAX);
    limit_gives("the last limit kept", UINT32_MAX, MOVER_DONE, UINT32_MAX - 1, UINT32_MAX - 2, 0, 0, 0);
    limit_gives("more than 32 bits", UINT32_MAX, MOVER_BAD_WEAR, 0, UINT32_MAX - 1, 0, 0, 0);
    limit_gives("a full counter", UINT32_MAX, MOVER_BAD_WEAR, UINT32_MAX, 0, 0, 0, 0);
}

/* A recovery that goes back to place 0 has worn the spare once more. */
static void places_checked(void)
{
    static const uint32_t four[] = {4, 0, 0, 0, 0};
    struct worn worn;
    struct mover_state at;
    begin(&worn, four);
    check("the limit is kept", mover_run_move(&worn.move, 0, 1, 5, &at) == MOVER_DONE);
    check("at place 1 no limit counts", mover_run_move(&worn.move, 1, 0, 0, &at) == MOVER_DONE);
    worn.marks[0] = 255;
    check("back to place 0", mover_mend_move(&worn.move, &at) == MOVER_DONE && at.place == 0 && counts(&worn, 5, 0, 0, 0, 0));
    check("the limit is passed", mover_run_move(&worn.move, 0, 0, 5, &at) == MOVER_BAD_WEAR);
    check("a higher one is kept", mover_run_move(&worn.move, 0, UINT32_MAX, 6, &at) == MOVER_DONE && counts(&worn, 6, 2, 2, 1, 0));
}

static uint32_t run_with(struct worn *worn, uint64_t wear_len, uint32_t place)
{
    const struct mover_move *move = &worn->move;
    struct mover_state at;
    return mover_run(3, 1, 1, 0, move->list, 6, move->pins, 3, move->sets, 3, move->store, 4, move->marks, 4, move->work, 1, move->wear,
                     wear_len, place, 1, 0, &at.place, &at.steps, &at.writes, &at.erases, &at.finished, &at.written_bytes, &at.pages_read);
}

static void order_checked(void)
{
    struct worn worn;
    uint32_t place = 77, erases = 77;
    begin(&worn, none);
    check("run: 12", run_with(&worn, 265, 0) == MOVER_BAD_WEAR);
    check("run: counters alone", run_with(&worn, 260, 0) == MOVER_BAD_LENGTH);
    check("run: a record too short", run_with(&worn, 264, 0) == MOVER_BAD_LENGTH);
    check("run: a record too long", run_with(&worn, 266, 0) == MOVER_BAD_LENGTH);
    check("run: 5 by the place", run_with(&worn, 265, 1) == MOVER_BAD_PLACE);
    worn.store[0] = 254;
    check("run: 5 before 12", run_with(&worn, 265, 0) == MOVER_BAD_PLACE);
    worn.sets[0] = 1;
    check("run: 4 before 12", run_with(&worn, 265, 0) == MOVER_BAD_SPLIT);
    worn.pins[0] = 1;
    check("run: 11 before 12", run_with(&worn, 265, 0) == MOVER_BAD_PINS);
    worn.list[0] = 3;
    check("run: 3 before 12", run_with(&worn, 265, 0) == MOVER_BAD_LIST);
    check("mend: a record too short", mover_mend(3, 1, 1, 0, worn.store, 4, worn.marks, 4, worn.wear, 264, &place, &erases)
                                          == MOVER_BAD_LENGTH && place == 0 && erases == 0);
    check("mend: a record too long", mover_mend(3, 1, 1, 0, worn.store, 4, worn.marks, 4, worn.wear, 266, &place, &erases)
                                         == MOVER_BAD_LENGTH);
    memset(worn.marks, 1, 4);
    check("mend: 6", mover_mend(3, 1, 1, 0, worn.store, 4, worn.marks, 4, worn.wear, 265, &place, &erases) == MOVER_BAD_MARKS);
    check("nothing counted", counts(&worn, 0, 0, 0, 0, 0));
}

void wear_checked(void)
{
    bytes_checked();
    moves_checked();
    full_checked();
    limits_checked();
    places_checked();
    order_checked();
}
