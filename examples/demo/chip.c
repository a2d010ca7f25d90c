#include "chip.h"
#include "spare.h"

#include <stdlib.h>
#include <string.h>

int chip_make(struct chip *chip, uint32_t blocks, uint32_t pages, uint32_t page_bytes, uint64_t seed)
{
    chip->cells.blocks = blocks;
    chip->cells.pages = pages;
    chip->cells.page_bytes = page_bytes;
    chip->cells.spare_bytes = SPARE_BYTES;
    chip->cells.random = seed;
    chip->erased = calloc(blocks, sizeof *chip->erased);
    return cells_make(&chip->cells) && chip->erased != NULL;
}

void chip_free(struct chip *chip)
{
    cells_free(&chip->cells);
    free(chip->erased);
}

/* What is to be in the spare area of a page. A raw mark is a byte, and the others stay blank. */
static void make_spare(const struct chip *chip, uint8_t *spare, uint32_t mark, uint64_t slot, const uint8_t *bytes)
{
    memset(spare, BLANK, SPARE_BYTES);
    if (chip->raw)
        spare[0] = (uint8_t)mark;
    else
        spare_make(spare, mark, slot, bytes, chip->cells.page_bytes);
}

static uint8_t mark_of(const struct chip *chip, uint64_t slot)
{
    const uint8_t *spare = cells_spare(&chip->cells, slot);
    if (chip->raw)
        return spare[0];
    return spare_mark(spare, slot, cells_page(&chip->cells, slot), chip->cells.page_bytes);
}

static int all_blank(const uint8_t *bytes, uint32_t count)
{
    for (uint32_t i = 0; i < count; i++)
        if (bytes[i] != BLANK)
            return 0;
    return 1;
}

void chip_fill(struct chip *chip, const uint8_t *bytes, uint32_t letter)
{
    struct cells *cells = &chip->cells;
    cells_clear(cells);
    for (uint64_t slot = cells->pages; slot < (uint64_t)cells->blocks * cells->pages; slot++, bytes += cells->page_bytes) {
        memcpy(cells_page(cells, slot), bytes, cells->page_bytes);
        make_spare(chip, cells_spare(cells, slot), letter, slot, bytes);
    }
}

void chip_load(struct chip *chip, uint8_t *store, uint8_t *marks, uint8_t *record)
{
    const struct cells *cells = &chip->cells;
    uint64_t slots = (uint64_t)cells->blocks * cells->pages;
    memcpy(store, cells->bytes, slots * cells->page_bytes);
    memcpy(record, chip->record, MOVER_WEAR_BYTES);
    for (uint64_t slot = 0; slot < slots; slot++) {
        marks[slot] = mark_of(chip, slot);
        chip->inexact += marks[slot] > 2 && !all_blank(cells_spare(cells, slot), SPARE_BYTES);
    }
}

void chip_keep(struct chip *chip, const uint8_t *record)
{
    memcpy(chip->record, record, MOVER_WEAR_BYTES);
}

/* The bytes first, and the spare area once they are there; a raw mark goes with the bytes. Returns 0 if the power failed. */
static int program(struct chip *chip, uint64_t slot, const uint8_t *bytes, const uint8_t *spare)
{
    if (chip->raw)
        return cells_program(&chip->cells, slot, bytes, spare);
    return cells_program(&chip->cells, slot, bytes, NULL) && cells_program(&chip->cells, slot, NULL, spare);
}

enum chip_answer chip_program(struct chip *chip, uint32_t block, uint32_t page, const uint8_t *bytes, uint32_t mark)
{
    const struct cells *cells = &chip->cells;
    uint64_t slot = (uint64_t)block * cells->pages + page;
    uint8_t spare[SPARE_BYTES];
    if (!all_blank(cells_page(cells, slot), cells->page_bytes) || !all_blank(cells_spare(cells, slot), SPARE_BYTES))
        return CHIP_MISUSED;
    make_spare(chip, spare, mark, slot, bytes);
    return program(chip, slot, bytes, spare) ? CHIP_DONE : CHIP_DOWN;
}

enum chip_answer chip_erase(struct chip *chip, uint32_t block)
{
    if (!cells_erase(&chip->cells, block))
        return CHIP_DOWN;
    chip->erased[block]++;
    return CHIP_DONE;
}
