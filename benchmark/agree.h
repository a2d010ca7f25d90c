#ifndef AGREE_H
#define AGREE_H

#include "scene.h"

/* Makes so many requests of all kinds and most sizes, good and faulty, of both movers. Returns how many were answered differently. */
uint32_t disagreements(const struct mover *a, const struct mover *b, uint32_t requests, uint64_t *random);

/* The same for the HEX calls. */
uint32_t hex_disagreements(const struct mover *a, const struct mover *b, uint32_t requests, uint64_t *random);

#endif
