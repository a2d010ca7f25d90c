/* The example of include/mover.h, on case P3 of docs/RULES.md: 2 blocks of 2 pages of one byte, pages 1 and 2 trade
 * places, and pages 0 and 3 are pinned. */
#include <mover.h>
#include <string.h>

int main(void)
{
    static const uint8_t list[8] = {0, 0, 2, 0, 1, 0, 3, 0}, due[6] = {255, 255, 1, 4, 2, 8}, pins[4] = {1, 0, 0, 1};
    uint8_t sets[4], store[6] = {255, 255, 1, 2, 4, 8}, marks[6] = {255, 255, 0, 0, 0, 0}, work[1], wear[MOVER_WEAR_BYTES] = {0};
    struct mover_move move = {2, 2, 1, 0, list, pins, sets, store, marks, work, wear};
    struct mover_state at;
    uint32_t number, wear_limit = 3;

    number = mover_split_move(&move);
    if (number == MOVER_DONE)
        number = mover_mend_move(&move, &at);
    if (number == MOVER_DONE)
        number = mover_run_move(&move, at.place, UINT32_MAX, wear_limit, &at);

    return number != MOVER_DONE || memcmp(store, due, sizeof store) != 0 || mover_counter(wear, 0) != 2 || mover_counter(wear, 1) != 2;
}
