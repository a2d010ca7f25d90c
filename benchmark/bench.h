/* What the files of the benchmark's lines share. */
#ifndef BENCH_H
#define BENCH_H

#include "scene.h"

enum { LIBRARY, PLAIN, BOTH };

extern const struct mover movers[BOTH];
extern uint64_t seed;
extern uint32_t rounds;

/* Ratios above this are pointed out. */
extern const double AIM;

/* Processor time in nanoseconds: what other programs take away does not count. */
double now(void);
double least(double a, double b);

/* Ends the program: the two differ. */
void stop(const char *what);
void print_ratio(const char *name, double ratio, double aim);

/* hex.c: the lines of the HEX calls, and the text of a scene at rest with the records of each 64 KiB span falling; `to` has the length
 * of its text, and page_bytes is a multiple of 16. */
void hex_lines(void);
void hex_falling(const struct scene *scene, uint8_t *to);

/* rebuild.c: the lines of what is rebuilt without one page. */
void rebuild_lines(void);

/* listing.c: the lines of the check of listings, and one check by the mover whose number `data` points to. */
void listing_lines(void);
void listing_stack(void *data);

#endif
