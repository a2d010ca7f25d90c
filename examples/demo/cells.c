#include "cells.h"
#include "random.h"

#include <stdlib.h>
#include <string.h>

static size_t slots(const struct cells *cells)
{
    return (size_t)cells->blocks * cells->pages;
}

uint8_t *cells_page(const struct cells *cells, uint64_t slot)
{
    return cells->bytes + slot * cells->page_bytes;
}

uint8_t *cells_spare(const struct cells *cells, uint64_t slot)
{
    return cells->spare + slot * cells->spare_bytes;
}

void cells_clear(struct cells *cells)
{
    memset(cells->bytes, BLANK, slots(cells) * cells->page_bytes);
    memset(cells->spare, BLANK, slots(cells) * cells->spare_bytes);
}

int cells_make(struct cells *cells)
{
    cells->bytes = malloc(slots(cells) * cells->page_bytes);
    cells->spare = malloc(slots(cells) * cells->spare_bytes);
    cells->erases = calloc(cells->blocks, sizeof *cells->erases);
    if (cells->bytes == NULL || cells->spare == NULL || cells->erases == NULL)
        return 0;
    cells_clear(cells);
    return 1;
}

void cells_free(struct cells *cells)
{
    free(cells->bytes);
    free(cells->spare);
    free(cells->erases);
}

/* When the power fails in an operation. Most cuts fall inside, since operations take their time. */
enum moment { NEVER, BEFORE, INSIDE, AFTER };

static enum moment moment_of_cut(struct cells *cells)
{
    if (cells->fuse == 0 || --cells->fuse != 0)
        return NEVER;
    switch (random_below(&cells->random, 10)) {
    case 0:
        cells->cut_before++;
        return BEFORE;
    case 1:
        cells->cut_after++;
        return AFTER;
    default:
        return INSIDE;
    }
}

/* Plain tears: no letter in the spare area, half of the times 255 and else half-written, and any bytes. Now and then the page looks blank, as
 * a real one may. */

enum { LETTERS = 3 };

static void tear_plainly(struct cells *cells, uint64_t slot)
{
    memset(cells_spare(cells, slot), BLANK, cells->spare_bytes);
    if (random_below(&cells->random, 2) == 0)
        cells_spare(cells, slot)[0] = (uint8_t)(LETTERS + random_below(&cells->random, BLANK - LETTERS));
    if (random_below(&cells->random, 8) == 0)
        memset(cells_page(cells, slot), BLANK, cells->page_bytes);
    else
        random_bytes(&cells->random, cells_page(cells, slot), cells->page_bytes);
}

static void tear_block_plainly(struct cells *cells, uint32_t block)
{
    uint32_t share = random_below(&cells->random, 5);
    for (uint32_t page = 0; page < cells->pages; page++)
        if (random_below(&cells->random, 4) < share)
            tear_plainly(cells, (uint64_t)block * cells->pages + page);
}

/* Rude tears. A share is a number of 256ths, and how far the operation came. */

enum { WHOLE = 256 };

/* Eight bits, about a share of them ones. */
static uint8_t some_ones(struct cells *cells, uint32_t share)
{
    uint64_t random = share == 0 ? 0 : random_next(&cells->random);
    uint8_t bits = 0;
    for (int i = 0; i < 8; i++)
        bits = (uint8_t)(bits << 1 | ((random >> 8 * i & 255) < share));
    return bits;
}

static void program_partly(struct cells *cells, uint8_t *at, const uint8_t *bytes, uint32_t count, uint32_t share)
{
    for (uint32_t i = 0; i < count; i++)
        at[i] &= (uint8_t)(bytes[i] | some_ones(cells, WHOLE - share));
}

enum stage { UNTOUCHED, FALLING, AT_ZERO, RISING_FROM_ZERO, RISING, AT_ONE, STAGES };

struct progress {
    enum stage stage;
    uint32_t share;
};

static struct progress any_progress(struct cells *cells)
{
    struct progress progress;
    progress.stage = (enum stage)random_below(&cells->random, STAGES);
    progress.share = random_below(&cells->random, WHOLE + 1);
    return progress;
}

static uint8_t partly_erased(struct cells *cells, uint8_t byte, struct progress progress)
{
    switch (progress.stage) {
    case FALLING:
        return byte & some_ones(cells, WHOLE - progress.share);
    case AT_ZERO:
        return 0;
    case RISING_FROM_ZERO:
        return some_ones(cells, progress.share);
    case RISING:
        return byte | some_ones(cells, progress.share);
    case AT_ONE:
        return BLANK;
    default:
        return byte;
    }
}

static void erase_partly(struct cells *cells, uint8_t *at, uint32_t count, struct progress progress)
{
    for (uint32_t i = 0; i < count; i++)
        at[i] = partly_erased(cells, at[i], progress);
}

/* Either all pages of the block came equally far, or each came as far as it did. */
static void tear_block_rudely(struct cells *cells, uint32_t block)
{
    struct progress bytes = any_progress(cells), spare = any_progress(cells);
    int alike = random_below(&cells->random, 2) == 0;
    for (uint32_t page = 0; page < cells->pages; page++) {
        uint64_t slot = (uint64_t)block * cells->pages + page;
        if (!alike) {
            bytes = any_progress(cells);
            spare = any_progress(cells);
        }
        erase_partly(cells, cells_page(cells, slot), cells->page_bytes, bytes);
        erase_partly(cells, cells_spare(cells, slot), cells->spare_bytes, spare);
    }
}

/* The operations. */

int cells_program(struct cells *cells, uint64_t slot, const uint8_t *bytes, const uint8_t *spare)
{
    enum moment cut = moment_of_cut(cells);
    uint32_t share = WHOLE;
    if (cut == BEFORE)
        return 0;
    cells->writes += bytes != NULL;
    if (cut == INSIDE) {
        cells->cut_in_write++;
        share = random_below(&cells->random, WHOLE + 1);
        if (!cells->rude) {
            tear_plainly(cells, slot);
            return 0;
        }
    }
    if (bytes != NULL)
        program_partly(cells, cells_page(cells, slot), bytes, cells->page_bytes, share);
    if (spare != NULL)
        program_partly(cells, cells_spare(cells, slot), spare, cells->spare_bytes, share);
    return cut == NEVER;
}

int cells_erase(struct cells *cells, uint32_t block)
{
    uint64_t first = (uint64_t)block * cells->pages;
    enum moment cut = moment_of_cut(cells);
    if (cut == BEFORE)
        return 0;
    cells->erases[block]++;
    if (cut == INSIDE) {
        cells->cut_in_erase++;
        if (cells->rude)
            tear_block_rudely(cells, block);
        else
            tear_block_plainly(cells, block);
        return 0;
    }
    memset(cells_page(cells, first), BLANK, (size_t)cells->pages * cells->page_bytes);
    memset(cells_spare(cells, first), BLANK, (size_t)cells->pages * cells->spare_bytes);
    return cut == NEVER;
}
