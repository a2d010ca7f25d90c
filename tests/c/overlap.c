/* Parts that overlap are noticed. Without an argument: mover_apart tells parts that touch from parts that share a byte, each with each.
 * With the name of a call: its struct helper is given overlapping parts, and stops the program if asserts are compiled in. */
#include "mover.h"

#include <string.h>

/* n = 2, m = 2, one byte a page: the parts one after the other, with nothing between, and a HEX text behind them. */
enum { PARTS = 7 };

static uint8_t room[8 + 4 + 4 + 6 + 6 + 1 + MOVER_WEAR_BYTES + 32], *const text = room + 29 + MOVER_WEAR_BYTES;
static const unsigned bytes[PARTS] = {8, 4, 4, 6, 6, 1, MOVER_WEAR_BYTES}, start[PARTS] = {0, 8, 12, 16, 22, 28, 29};

static struct mover_move lend(const unsigned *at)
{
    struct mover_move move = {2, 2, 1, 0, room + at[0], room + at[1], room + at[2], room + at[3], room + at[4], room + at[5], room + at[6]};
    return move;
}

/* How many answers of mover_apart are wrong. */
static int wrong_answers(void)
{
    struct mover_move move = lend(start);
    unsigned at[PARTS], i, j;
    int wrong = !mover_apart(&move);
    for (i = 0; i < PARTS; i++)
        for (j = 0; j < PARTS; j++)
            if (i != j) {
                memcpy(at, start, sizeof at);
                at[i] = start[j] + bytes[j] - 1;
                move = lend(at);
                wrong += mover_apart(&move);
            }
    move = lend(start);
    wrong += !mover_apart_from(&move, text, 32) + mover_apart_from(&move, text - 1, 32) + mover_apart_from(&move, room, 1);
    wrong += !mover_apart_from_both(&move, text, 4, text + 4, 4) + mover_apart_from_both(&move, text, 5, text + 4, 4)
             + mover_apart_from_both(&move, text + 4, 4, text - 1, 4) + mover_apart_from_both(&move, text - 1, 1, text, 4)
             + mover_apart_from_both(&move, text + 3, 4, text, 4);
    move.n = 65;
    wrong += !mover_apart(&move);
    memset(&move, 0, sizeof move);
    move.n = move.m = move.page_bytes = 1;
    return wrong + !mover_apart(&move);
}

int main(int count, char **words)
{
    static const unsigned at[PARTS] = {0, 8, 12, 16, 22, 21, 29};
    struct mover_move move = lend(at);
    struct mover_state state;
    uint32_t number, bytes_written;
    if (count < 2)
        return wrong_answers();
    if (strcmp(words[1], "split") == 0)
        return (int)mover_split_move(&move);
    if (strcmp(words[1], "run") == 0)
        return (int)mover_run_move(&move, 0, 0, UINT32_MAX, &state);
    if (strcmp(words[1], "mend") == 0)
        return (int)mover_mend_move(&move, &state);
    if (strcmp(words[1], "read") == 0)
        return (int)mover_read_move(&move, 0, &number, &bytes_written);
    move = lend(start);
    if (strcmp(words[1], "hex_read") == 0)
        return (int)mover_hex_read_move(&move, text - 1, 12);
    if (strcmp(words[1], "rebuild") == 0)
        return (int)mover_rebuild_move(&move, text, text + 3, 0);
    return (int)mover_hex_write_move(&move, text - 1);
}
