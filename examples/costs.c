/* What moves cost in stored pages read: the least, the mean and the most over random lists of some sizes, and lists at the ends. The lists are the
 * same at every run. Prints a table, for a move and for a page that it writes, beside what is proved: 2 * n * n * m, and n. */
#include "demo/random.h"

#include <mover.h>
#include <stdio.h>
#include <string.h>

enum { BLOCKS = 64, PAGES = 64, LISTS = 200, RANDOM = 0, STAY, UP, DOWN };

static uint8_t list[2 * BLOCKS * PAGES], pins[BLOCKS * PAGES], sets[BLOCKS * PAGES], store[(BLOCKS + 1) * PAGES],
    marks[(BLOCKS + 1) * PAGES], work[1], wear[MOVER_WEAR_BYTES];

/* Every page stays, or goes to the next block or to the one before, which makes one cycle of all blocks in each set; or any order. */
static void order(uint32_t n, uint32_t m, int how, uint64_t *random)
{
    static uint16_t numbers[BLOCKS * PAGES];
    uint32_t count = n * m, k;
    for (k = 0; k < count; k++)
        numbers[k] = (uint16_t)(how == UP ? (k + m) % count : how == DOWN ? (k + count - m) % count : k);
    for (k = count; how == RANDOM && k > 1; k--) {
        uint32_t other = random_below(random, k);
        uint16_t number = numbers[k - 1];
        numbers[k - 1] = numbers[other];
        numbers[other] = number;
    }
    for (k = 0; k < count; k++)
        mover_send(list, k, numbers[k]);
}

/* The stored pages that a whole move reads; 0 if a call fails. Their bytes do not matter. */
static uint32_t reads_of(uint32_t n, uint32_t m, int how, uint64_t *random)
{
    const struct mover_move move = {n, m, 1, 0, list, pins, sets, store, marks, work, wear};
    struct mover_state at = {0};
    order(n, m, how, random);
    memset(store, 255, m);
    memset(marks, 255, m);
    memset(marks + m, 0, (uint64_t)n * m);
    if (mover_split_move(&move) != MOVER_DONE || mover_run_move(&move, 0, UINT32_MAX, UINT32_MAX, &at) != MOVER_DONE || !at.finished)
        return 0;
    return at.pages_read;
}

/* One line: of a move, its mean in tenths, and the mean of a page in hundredths. Returns whether all lists were moved within the bound. */
static int line(uint32_t n, uint32_t m, int how, const char *name)
{
    uint64_t random = 1, sum = 0, bound = 2 * (uint64_t)n * n * m, pages = 2 * (uint64_t)n * m, mean, of_page;
    uint32_t lists = how == RANDOM ? LISTS : 1, least = UINT32_MAX, most = 0, i;
    for (i = 0; i < lists; i++) {
        uint32_t reads = reads_of(n, m, how, &random);
        least = reads < least ? reads : least;
        most = reads > most ? reads : most;
        sum += reads;
    }
    mean = 10 * sum / lists;
    of_page = 100 * sum / (lists * pages);
    printf("%3u %3u  %-7s %5u %8u %8lu.%lu %8u %8lu %4lu.%02lu %6u\n", (unsigned)n, (unsigned)m, name, (unsigned)lists, (unsigned)least,
           (unsigned long)(mean / 10), (unsigned long)(mean % 10), (unsigned)most, (unsigned long)bound, (unsigned long)(of_page / 100),
           (unsigned long)(of_page % 100), (unsigned)n);
    return least > 0 && most <= bound;
}

int main(void)
{
    static const uint32_t sizes[][2] = {{3, 1}, {8, 1}, {8, 8}, {16, 16}, {64, 1}, {64, 64}};
    unsigned i, good = 1;
    printf("  n   m  order   lists    least       mean     most    bound  a page  bound\n");
    for (i = 0; i < sizeof sizes / sizeof sizes[0]; i++)
        good &= (unsigned)line(sizes[i][0], sizes[i][1], RANDOM, "random");
    good &= (unsigned)line(64, 64, STAY, "stay");
    good &= (unsigned)line(64, 64, UP, "up");
    good &= (unsigned)line(64, 64, DOWN, "down");
    return !good;
}
