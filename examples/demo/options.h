/* What the demo is told on its command line. */
#ifndef OPTIONS_H
#define OPTIONS_H

#include <stdint.h>

struct options {
    uint64_t seed;
    uint32_t moves, blocks, pages, page_bytes, letter, cut_within, pause, wear, limit;
    int plain, raw;
};

/* Takes the options. Returns 0; or, when the program is to end with it, 1 after printing the help and 2 after telling which option
 * is wrong. */
int take_options(struct options *options, int count, char **words);

#endif
