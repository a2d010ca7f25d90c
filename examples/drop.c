/* Old wear logs are thrown away: 2 blocks of 2 pages of 4 bytes. */
#include <mover.h>
#include <string.h>

int main(void)
{
    static const uint8_t pins[4], blank[4] = {255, 255, 255, 255};
    uint8_t list[8], sets[4], store[24], marks[6], work[4], wear[MOVER_WEAR_BYTES] = {0};
    const struct mover_move move = {2, 2, 4, 0, list, pins, sets, store, marks, work, wear};
    struct mover_state at;
    uint32_t count, bytes;

    memset(store, 255, 8);
    memset(marks, 255, 2);
    memset(marks + 2, 0, 4);
    memcpy(store + 8, "log1fit1log2fit2", 16);

    mover_drop(list, 0);                                /* nobody needs the logs .. */
    mover_drop(list, 2);
    mover_send(list, 1, 2);                             /* .. and the fitting pages change blocks */
    mover_send(list, 3, 0);
    if (mover_split_move(&move) != MOVER_DONE)
        return 1;

    /* log1 is still in its slot, but is read as 255s, from no stored page */
    if (mover_read_move(&move, 0, &count, &bytes) != MOVER_DONE || count != 0 || bytes != 0 || memcmp(work, blank, 4) != 0)
        return 1;

    if (mover_run_move(&move, 0, UINT32_MAX, UINT32_MAX, &at) != MOVER_DONE || !at.finished)
        return 1;
    /* no entry names pages 1 and 3: they hold 255s */
    return memcmp(store + 8, "fit2\377\377\377\377fit1\377\377\377\377", 16) != 0;
}
