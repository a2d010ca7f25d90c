/* The cells of a flash chip, in memory, and a power supply that fails.
 *
 * An erase turns all bits of a block to ones; programming turns ones to zeros. Each page has bytes and a spare area. Power may fail
 * before an operation, inside it or after it. What an operation leaves that was cut inside:
 *
 *   plain tears   the page, or some pages of the block, with 3 to 255 at the start of the spare area, else blank, and any bytes: what the
 *                 library asks of a chip
 *   rude tears    some of the bits that were to become zeros have, in any order; an erase may have turned bits to zeros before it
 *                 turns them to ones, and be anywhere on that way, with the spare area at another point than the bytes
 *
 * No other page changes. */
#ifndef CELLS_H
#define CELLS_H

#include <stdint.h>

enum { BLANK = 255 };

struct cells {
    uint32_t blocks, pages, page_bytes, spare_bytes;
    uint8_t *bytes, *spare;                 /* what the flash holds */
    uint32_t *erases;                       /* how many erases of each block were begun */
    uint32_t writes;                        /* how often the bytes of a page were begun to be written */
    uint32_t fuse;                          /* operations until the power fails; 0 for never */
    uint32_t cut_before, cut_in_write, cut_in_erase, cut_after;
    int rude;
    uint64_t random;
};

/* Returns 0 if there is no memory. All cells are blank; cells_free gives back what they take. */
int cells_make(struct cells *cells);
void cells_free(struct cells *cells);
void cells_clear(struct cells *cells);

uint8_t *cells_page(const struct cells *cells, uint64_t slot);
uint8_t *cells_spare(const struct cells *cells, uint64_t slot);

/* Programs the bytes of a page, its spare area, or both at once; NULL stands for what is to stay. Returns 0 if the power failed. */
int cells_program(struct cells *cells, uint64_t slot, const uint8_t *bytes, const uint8_t *spare);

/* Erases a block. Returns 0 if the power failed. */
int cells_erase(struct cells *cells, uint32_t block);

#endif
