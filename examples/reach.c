/* What a changed page touches: reach N M PAGE ENTRY .. moves two stores that differ in original PAGE alone and prints, at rest and after each step,
 * the pages in which they differ, as BLOCK.PAGE. Without arguments it has a list of its own. */
#include <mover.h>
#include <stdio.h>
#include <stdlib.h>
#include <string.h>

enum { MOST_ENTRIES = 64 * 64, MOST_SLOTS = 65 * 64 };

static uint8_t list[2 * MOST_ENTRIES], pins[MOST_ENTRIES], sets[MOST_ENTRIES], work[1];
static uint8_t store[2][MOST_SLOTS], marks[2][MOST_SLOTS], wear[2][MOVER_WEAR_BYTES];

/* Prints the slots in which the stores differ, and returns how many there are. */
static uint32_t print_differences(uint32_t n, uint32_t m)
{
    uint32_t t, count = 0;
    for (t = 0; t < (n + 1) * m; t++)
        if (store[0][t] != store[1][t]) {
            printf(" %u.%u", (unsigned)(t / m), (unsigned)(t % m));
            count++;
        }
    printf("\n");
    return count;
}

static void print_step(uint32_t n, uint32_t m, uint32_t place)
{
    struct mover_step step;
    if (mover_operation(n, m, 0, place, &step.kind, &step.block, &step.page, &step.mark) != MOVER_DONE)
        return;
    if (step.kind == MOVER_WRITE)
        printf("%u W %u %u:", (unsigned)place, (unsigned)step.block, (unsigned)step.page);
    else
        printf("%u E %u:", (unsigned)place, (unsigned)step.block);
}

int main(int count, char **words)
{
    uint32_t n = 3, m = 1, page = 2, entries = 3, k, place, last, differ, most = 1, status;
    struct mover_move move[2];
    struct mover_state at[2];
    int i;

    for (k = 0; k < 3; k++)                             /* three blocks of one page, 1 2 0 */
        mover_send(list, k, (k + 1) % 3);
    if (count > 4) {
        n = (uint32_t)strtoul(words[1], NULL, 10);
        m = (uint32_t)strtoul(words[2], NULL, 10);
        page = (uint32_t)strtoul(words[3], NULL, 10);
        entries = (uint32_t)(count - 4) < MOST_ENTRIES ? (uint32_t)(count - 4) : MOST_ENTRIES;
        for (k = 0; k < entries; k++)
            mover_send(list, k, (uint32_t)strtoul(words[4 + k], NULL, 10));
    }
    status = mover_split(n, m, 1, 0, list, 2 * (uint64_t)entries, pins, entries, sets, entries);
    if (status != MOVER_DONE || page >= entries) {
        printf("refused %u\n", (unsigned)(status != MOVER_DONE ? status : MOVER_BAD_ORIGINAL));
        return 1;
    }

    for (i = 0; i < 2; i++) {
        const struct mover_move one = {n, m, 1, 0, list, pins, sets, store[i], marks[i], work, wear[i]};
        memset(store[i], 255, m);
        memset(marks[i], 255, m);
        store[i][m + page] = (uint8_t)i;
        move[i] = one;
    }
    last = mover_last_place(n, m);
    printf("at rest:");
    print_differences(n, m);
    for (place = 0; place < last; place++) {
        print_step(n, m, place);
        for (i = 0; i < 2; i++)
            if (mover_run_move(&move[i], place, 1, UINT32_MAX, &at[i]) != MOVER_DONE)
                return 1;
        differ = print_differences(n, m);
        most = differ > most ? differ : most;
        if (memcmp(marks[0], marks[1], (n + 1) * m) != 0)
            return 1;
    }
    printf("at most %u at a time\n", (unsigned)most);
    return most > 3;
}
