/* Tells which order of the blocks the papers' coding would need fewest erases in, for a list of destinations: order N M ENTRY .., an entry being a page
 * number or "drop". With more blocks than the search takes it tells of the blocks' own order. Without arguments it takes a list of its own. */
#include <mover.h>
#include <stdio.h>
#include <stdlib.h>
#include <string.h>

enum { MOST_BLOCKS = 64, MOST_ENTRIES = 64 * 64 };

static uint8_t list[2 * MOST_ENTRIES], order[MOST_BLOCKS];

/* Three blocks of two pages: block 1 trades a page with each of the others. */
static const uint32_t own[] = {2, 4, 0, 3, 1, 5};

static const char *reason(uint32_t status)
{
    switch (status) {
    case MOVER_BAD_SIZES: return "the sizes are out of range";
    case MOVER_BAD_BLOCKS: return "there are fewer than three blocks";
    case MOVER_BAD_LENGTH: return "the list has another length";
    case MOVER_BAD_LIST: return "the list is not one-to-one";
    default: return "?";
    }
}

static void print_order(const char *what, uint32_t n, uint32_t y, uint32_t page)
{
    uint32_t i;
    printf("%s:", what);
    for (i = 0; i < n; i++)
        printf(" %u", (unsigned)order[i]);
    printf("\ny is %u: %u erases by that coding, %u by this library\n", (unsigned)y, (unsigned)mover_coded_erases(n, y), (unsigned)(2 * n));
    if (y > 0)
        printf("page %u stands against a smaller y\n", (unsigned)page);
}

int main(int count, char **words)
{
    uint32_t n = 3, m = 2, k, y, page, status;
    uint64_t entries = 6;

    for (k = 0; k < 6; k++)
        mover_send(list, k, own[k]);
    if (count > 2) {
        n = (uint32_t)strtoul(words[1], NULL, 10);
        m = (uint32_t)strtoul(words[2], NULL, 10);
        entries = (uint64_t)(count - 3) < MOST_ENTRIES ? (uint64_t)(count - 3) : MOST_ENTRIES;
        for (k = 0; k < entries; k++)
            mover_send(list, k, strcmp(words[3 + k], "drop") == 0 ? MOVER_DROPPED : (uint32_t)strtoul(words[3 + k], NULL, 10));
    }
    for (k = 0; k < MOST_BLOCKS; k++)
        order[k] = (uint8_t)(k + 1);

    status = mover_least_y(n, m, list, 2 * entries, order, mover_order_bytes(n), &y, &page);
    if (status != MOVER_DONE) {
        printf("%s\n", reason(status));
        return 1;
    }
    print_order("the blocks' own order", n, y, page);
    if (n <= MOVER_MOST_SEARCHED) {
        status = mover_best_order(n, m, list, 2 * entries, order, mover_order_bytes(n), &y, &page);
        print_order("the best order", n, y, page);
    }
    return count > 2 ? 0 : !(status == MOVER_DONE && y == 0 && memcmp(order, "\2\1\3", 3) == 0);
}
