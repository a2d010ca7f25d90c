/* The driver of a flash chip: pages with marks, on cells that have bytes and a spare area.
 *
 * The mark of a page is in its spare area: as a code word with a checksum (spare.h), which is programmed after the bytes; or raw, as
 * a single byte that is programmed together with the bytes, to show what comes of that. */
#ifndef CHIP_H
#define CHIP_H

#include "cells.h"
#include "mover.h"

struct chip {
    struct cells cells;
    int raw;
    uint32_t inexact;       /* how many pages were read without a letter although their spare area was not blank */
    uint32_t *erased;       /* how many erases of each block were done */
    uint8_t record[MOVER_WEAR_BYTES];   /* the counters of erases, in a memory of its own that keeps them without power */
};

enum chip_answer {
    CHIP_DONE,
    CHIP_DOWN,      /* the power failed */
    CHIP_MISUSED    /* a page that is not blank was to be written */
};

/* Returns 0 if there is no memory. One of the blocks is the spare block. chip_free gives back what the chip takes. */
int chip_make(struct chip *chip, uint32_t blocks, uint32_t pages, uint32_t page_bytes, uint64_t seed);
void chip_free(struct chip *chip);

/* The state before a move: the spare block, number 0, is blank, and the others are filled with pages that have this letter. */
void chip_fill(struct chip *chip, const uint8_t *bytes, uint32_t letter);

/* At power-up: the bytes of all pages as they read, their marks, and the record. */
void chip_load(struct chip *chip, uint8_t *store, uint8_t *marks, uint8_t *record);

/* The record after a call that returned, once the chip has done the same. */
void chip_keep(struct chip *chip, const uint8_t *record);

enum chip_answer chip_program(struct chip *chip, uint32_t block, uint32_t page, const uint8_t *bytes, uint32_t mark);
enum chip_answer chip_erase(struct chip *chip, uint32_t block);

#endif
