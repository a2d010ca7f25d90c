/* What the demo prints. */
#include "demo.h"

#include <inttypes.h>
#include <stdio.h>

/* The ending of a word that is counted. */
static const char *s(uint32_t count)
{
    return count == 1 ? "" : "s";
}

/* Whether a cut leaves what the library asks for: with bare mark bytes it does only if tears are plain. */
static int keeps_promises(const struct demo *demo)
{
    return !demo->options.raw || demo->options.plain;
}

static uint32_t erases_begun(const struct demo *demo)
{
    uint32_t sum = 0;
    for (uint32_t block = 0; block <= demo->options.blocks; block++)
        sum += demo->chip.cells.erases[block];
    return sum;
}

/* Two for each data block of a move, and one for each recovery. */
static uint32_t erases_allowed(const struct demo *demo)
{
    return 2 * demo->options.blocks * demo->options.moves + demo->recoveries;
}

void print_start(const struct demo *demo)
{
    const struct options *o = &demo->options;
    uint32_t pages = o->blocks * o->pages;
    printf("Pages trade places while the power fails\n\n");
    printf("  flash       %" PRIu32 " data block%s and a spare, %" PRIu32 " page%s a block, %" PRIu32 " byte%s a page\n", o->blocks,
           s(o->blocks), o->pages, s(o->pages), o->page_bytes, s(o->page_bytes));
    printf("  marks       %s\n",
           o->raw ? "bare bytes, programmed together with the page" : "code words with a checksum, programmed after the page");
    if (o->moves == 1)
        printf("  move        ");
    else
        printf("  moves       %" PRIu32 ", each of ", o->moves);
    printf("%" PRIu32 " page%s in random order but for pinned and dropped ones, %" PRIu32 " steps, seed %" PRIu64 "\n", pages, s(pages), demo->last,
           o->seed);
    if (o->cut_within == 0)
        printf("  power       never fails\n\n");
    else
        printf("  power       fails after 1 to %" PRIu32 " chip operations, then again, until the move is done; %s tears\n\n",
               o->cut_within, o->plain ? "plain" : "rude");
    if (!demo->live)
        printf("  [");
}

/* One line that is written over on a terminal and grows elsewhere. */
void print_progress(struct demo *demo)
{
    enum { WIDTH = 50 };
    uint64_t done = (uint64_t)(demo->moves_ended + demo->moves_stopped) * demo->last + (demo->place > demo->last ? 0 : demo->place);
    uint32_t full = (uint32_t)(done * WIDTH / ((uint64_t)demo->last * demo->options.moves));
    if (!demo->live) {
        for (; demo->shown < full; demo->shown++)
            putchar('#');
        return;
    }
    printf("\r  [");
    for (uint32_t i = 0; i < WIDTH; i++)
        putchar(i < full ? '#' : '.');
    printf("] %3" PRIu32 "%%  %" PRIu32 " cut%s, %" PRIu32 " page%s read, most worn block %" PRIu32 " with %" PRIu32 " ", full * 100 / WIDTH,
           demo->cuts, s(demo->cuts), demo->pages_read, s(demo->pages_read), mover_highest_block(demo->chip.record),
           mover_highest_count(demo->chip.record));
    fflush(stdout);
}

static uint32_t counter(const struct demo *demo, uint32_t block)
{
    return mover_counter(demo->chip.record, block);
}

/* A bar for each block, the most worn one's full. A cut loses its erase's count, so that more may have been begun. */
static void print_wear(const struct demo *demo)
{
    enum { WIDTH = 40 };
    uint32_t highest = mover_highest_count(demo->chip.record);
    for (uint32_t block = 0; block <= demo->options.blocks; block++) {
        uint64_t full = (uint64_t)counter(demo, block) * WIDTH / (highest > 0 ? highest : 1);
        printf("  block %2" PRIu32 "    ", block);
        for (uint32_t i = 0; i < WIDTH; i++)
            putchar(i < full ? '#' : '.');
        printf("  worn by %" PRIu32 " erase%s; %" PRIu32 " begun here\n", counter(demo, block), s(counter(demo, block)),
               demo->chip.cells.erases[block]);
    }
    printf("\n");
}

/* Whether each counter has risen by the erases of its block that were done, unless it is at its end, and the highest is the one kept. */
static int counted_well(const struct demo *demo)
{
    uint32_t highest = mover_highest_count(demo->chip.record), most_worn = mover_highest_block(demo->chip.record);
    for (uint32_t block = 0; block < MOVER_COUNTERS; block++) {
        uint64_t due = demo->options.wear + (uint64_t)(block <= demo->options.blocks ? demo->chip.erased[block] : 0);
        if (counter(demo, block) != (due > UINT32_MAX ? UINT32_MAX : due))
            return 0;
        if (counter(demo, block) > highest || (counter(demo, block) == highest && block < most_worn))
            return 0;
    }
    return counter(demo, most_worn) == highest;
}

static void print_cuts(const struct demo *demo)
{
    const struct cells *cells = &demo->chip.cells;
    printf("  cut%-9s%" PRIu32 ": %" PRIu32 " tore a page, %" PRIu32 " tore an erase, %" PRIu32 " between operations; %" PRIu32
           " in recovery\n", s(demo->cuts), demo->cuts, cells->cut_in_write, cells->cut_in_erase,
           cells->cut_before + cells->cut_after, demo->cut_recoveries);
    printf("  marks       %" PRIu32 " damaged one%s met and counted as 'not written'\n", demo->chip.inexact, s(demo->chip.inexact));
}

static void print_reads(const struct demo *demo)
{
    printf("  read        %" PRIu32 " page%s in mid-move, ", demo->pages_read, s(demo->pages_read));
    if (demo->reads_wrong == 0)
        printf("each as it was, or 255s if dropped");
    else
        printf("%" PRIu32 " of them WRONG", demo->reads_wrong);
    printf("; at most %" PRIu32 " stored page%s summed for one\n", demo->most_summed, s(demo->most_summed));
}

static void print_work(const struct demo *demo)
{
    const struct options *o = &demo->options;
    uint32_t writes = demo->chip.cells.writes, erases = erases_begun(demo), data_blocks = o->blocks * o->moves;
    printf("  written     %" PRIu32 " page%s; without a cut it is %" PRIu32 "\n", writes, s(writes), 2 * data_blocks * o->pages);
    printf("  load        %" PRIu64 " bytes that are not 255, as run counts those of the pages it writes\n", demo->written_bytes);
    printf("  reads       %" PRIu64 " stored pages for the %" PRIu64 " that run made; proved: at most %" PRIu32 " for one, %" PRIu64 " in all\n",
           demo->stored_read, demo->built, o->blocks, demo->built * o->blocks);
    printf("  erased      %" PRIu32 " block%s", erases, s(erases));
    if (keeps_promises(demo))
        printf("; proved: at most 2 x %" PRIu32 " + %" PRIu32 " recover%s = %" PRIu32, data_blocks, demo->recoveries,
               demo->recoveries == 1 ? "y" : "ies", erases_allowed(demo));
    printf("\n\n");
    print_wear(demo);
}

static void print_losses(const struct demo *demo)
{
    uint32_t pages = demo->moves_ended * demo->options.blocks * demo->options.pages - demo->emptied;
    printf("  in place    %" PRIu32 " of %" PRIu32 " page%s%s\n", pages - demo->pages_lost, pages, s(pages),
           demo->moves_stopped == 0 ? "" : " of the moves that came to their end");
    printf("  stayed      %" PRIu32 " of %" PRIu32 " pinned page%s\n", demo->pinned - demo->pinned_astray, demo->pinned, s(demo->pinned));
    printf("  dropped     %" PRIu32 " of %" PRIu32 " old wear-log page%s: 255s in the place paired with each\n", demo->emptied - demo->emptied_wrong,
           demo->emptied, s(demo->emptied));
    if (demo->pages_lost != 0)
        printf("  LOST        %" PRIu32 " page%s in %" PRIu32 " of %" PRIu32 " move%s\n", demo->pages_lost, s(demo->pages_lost),
               demo->moves_with_loss, demo->options.moves, s(demo->options.moves));
    if (demo->moves_stopped != 0)
        printf("  STOPPED     %" PRIu32 " of %" PRIu32 " move%s; the first of them because %s\n", demo->moves_stopped,
               demo->options.moves, s(demo->options.moves), demo->stopped_by);
}

/* The last line. Returns whether all is well. */
static int print_verdict(const struct demo *demo)
{
    if (demo->moves_wrong != 0) {
        printf("\n%" PRIu32 " of %" PRIu32 " move%s went WRONG.%s\n", demo->moves_wrong, demo->options.moves, s(demo->options.moves),
               keeps_promises(demo) ? "" : " Bare mark bytes do not stand rude tears; docs/CHIPS.md tells what does.");
        return 0;
    }
    if (keeps_promises(demo) && erases_begun(demo) > erases_allowed(demo)) {
        printf("\nThere were more erases than there may be: something is WRONG.\n");
        return 0;
    }
    if (demo->dear != 0) {
        printf("\nMore stored pages were read for a page than there are data blocks: something is WRONG.\n");
        return 0;
    }
    if (!counted_well(demo)) {
        printf("\nThe erases are counted WRONG.\n");
        return 0;
    }
    printf("\nEvery page that was kept is in its place.\n");
    if (demo->worn)
        printf("The module is worn: block %" PRIu32 " has had %" PRIu32 " erase%s, the most of all, and one move more would take a block\n"
               "past %" PRIu32 ". It was refused.\n", mover_highest_block(demo->chip.record), mover_highest_count(demo->chip.record),
               s(mover_highest_count(demo->chip.record)), demo->options.limit);
    return 1;
}

int print_end(const struct demo *demo)
{
    printf("%s\n\n", demo->live ? "" : "]");
    print_cuts(demo);
    print_reads(demo);
    print_work(demo);
    print_losses(demo);
    return print_verdict(demo);
}
