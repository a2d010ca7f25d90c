/* What the demo works on and keeps count of. */
#ifndef DEMO_H
#define DEMO_H

#include "chip.h"
#include "mover.h"
#include "options.h"

struct demo {
    struct options options;
    struct chip chip;
    struct mover_move move;       /* the image of the chip, the list and the pins */
    uint8_t *list, *pins;
    uint8_t *originals;           /* kept to compare with: what each page is to be read as, which is 255s for one that is dropped */
    uint32_t place, last;
    uint64_t random;

    uint32_t moves_ended, moves_stopped;    /* a move comes to its end, or stops because something was refused */
    uint32_t moves_wrong;                   /* those that stopped, lost a page or read one wrong */
    uint32_t cuts, recoveries, cut_recoveries;
    uint64_t written_bytes;                 /* as run counts them: those of its pages that are not 255 */
    uint64_t built, stored_read;            /* the pages that run wrote, and those that it read for them */
    uint32_t dear;                          /* steps that read more than n */
    uint32_t pages_read, reads_wrong, most_summed;
    uint32_t pages_lost, moves_with_loss;   /* of moves that ended */
    uint32_t pinned, pinned_astray;         /* of these too: the pages that must stay, and those of them that did not */
    uint32_t emptied, emptied_wrong;        /* and the places that dropped pages leave empty, and those of them that do not hold 255s */
    const char *stopped_by;                 /* what was wrong in the first move that stopped, or NULL */
    int worn;                               /* a move was not begun: a block would have passed the limit */

    int live;                     /* progress is shown on a terminal */
    uint32_t shown;
};

/* report.c: what the demo prints. print_end also returns whether all is well. */
void print_start(const struct demo *demo);
void print_progress(struct demo *demo);
int print_end(const struct demo *demo);

#endif
