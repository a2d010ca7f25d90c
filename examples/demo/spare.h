/* What the spare area of a page holds, so that a page that was torn is never taken for a written one. */
#ifndef SPARE_H
#define SPARE_H

#include <stdint.h>

enum { SPARE_BYTES = 8 };

/* The spare area of a page that is written with a letter, 0, 1 or 2. */
void spare_make(uint8_t *spare, uint32_t letter, uint64_t slot, const uint8_t *bytes, uint32_t page_bytes);

/* The mark of a page: its letter, or 255 if spare area and bytes are not exactly what spare_make gives for one. */
uint8_t spare_mark(const uint8_t *spare, uint64_t slot, const uint8_t *bytes, uint32_t page_bytes);

#endif
