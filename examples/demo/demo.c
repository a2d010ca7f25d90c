/* Moves of pages on a flash chip whose power fails again and again.
 *
 * The chip is driven as a real one would be: the library takes one step on an image of the chip in RAM, and the program then does
 * the same on the chip. A power cut takes the image away. What is left is the chip with its record of erases, the list, the pins,
 * the sizes and s. */
#define _POSIX_C_SOURCE 200809L

#include "demo.h"
#include "random.h"

#include <stdio.h>
#include <stdlib.h>
#include <string.h>
#include <time.h>
#include <unistd.h>

enum outcome { DONE, POWER_CUT, WRONG, WORN };

/* The move cannot go on. */
static enum outcome wrong(struct demo *demo, const char *what)
{
    if (demo->stopped_by == NULL)
        demo->stopped_by = what;
    demo->moves_stopped++;
    return WRONG;
}

/* The chip's answer, with what a fault of it means. */
static enum outcome outcome_of(struct demo *demo, enum chip_answer answer)
{
    if (answer == CHIP_MISUSED)
        return wrong(demo, "a page that is not blank was to be written");
    return answer == CHIP_DOWN ? POWER_CUT : DONE;
}

/* One step: on the image in RAM first, then on the chip, and then its erase is put down. A worn module is refused before the first. */
static enum outcome take_step(struct demo *demo)
{
    struct mover_step step;
    struct mover_state state;
    enum outcome outcome;
    uint32_t number = mover_run_move(&demo->move, demo->place, 1, demo->options.limit, &state);
    if (number == MOVER_BAD_WEAR)
        return WORN;
    if (number != MOVER_DONE || mover_step_of(&demo->move, demo->place, &step) != MOVER_DONE)
        return wrong(demo, "a step was refused");
    demo->written_bytes += state.written_bytes;
    demo->built += state.writes;
    demo->stored_read += state.pages_read;
    demo->dear += state.pages_read > demo->options.blocks;
    if (step.kind == MOVER_WRITE)
        outcome = outcome_of(demo, chip_program(&demo->chip, step.block, step.page, demo->move.work, step.mark));
    else
        outcome = outcome_of(demo, chip_erase(&demo->chip, step.block));
    if (outcome == DONE)
        chip_keep(&demo->chip, demo->move.wear);
    demo->place = state.place;
    return outcome;
}

/* Recovery: the block to erase is the one that is written next; after the last step it is the spare. */
static enum outcome recover(struct demo *demo)
{
    struct mover_step step;
    struct mover_state state;
    enum outcome outcome = DONE;
    demo->recoveries++;
    if (mover_mend_move(&demo->move, &state) != MOVER_DONE || mover_step_of(&demo->move, state.place, &step) != MOVER_DONE)
        return wrong(demo, "recovery was refused");
    demo->place = state.place;
    if (state.erases == 1)
        outcome = outcome_of(demo, chip_erase(&demo->chip, step.block));
    if (outcome == DONE)
        chip_keep(&demo->chip, demo->move.wear);
    return outcome;
}

/* Reads an original and compares it. */
static enum outcome read_one(struct demo *demo, uint32_t original)
{
    uint32_t count, bytes;
    const uint8_t *due = demo->originals + (uint64_t)original * demo->options.page_bytes;
    if (mover_read_move(&demo->move, original, &count, &bytes) != MOVER_DONE)
        return wrong(demo, "a read was refused");
    demo->pages_read++;
    demo->reads_wrong += memcmp(demo->move.work, due, demo->options.page_bytes) != 0;
    if (count > demo->most_summed)
        demo->most_summed = count;
    return DONE;
}

static enum outcome read_some(struct demo *demo, uint32_t how_many)
{
    enum outcome outcome = DONE;
    while (outcome == DONE && how_many-- > 0)
        outcome = read_one(demo, random_below(&demo->random, demo->options.blocks * demo->options.pages));
    return outcome;
}

/* When the power fails next. A battery door bounces: one time in four the first chip operation is hit, which is recovery's own. */
static uint32_t fuse_of(struct demo *demo)
{
    if (demo->options.cut_within == 0)
        return 0;
    return random_below(&demo->random, 4) == 0 ? 1 : 1 + random_below(&demo->random, demo->options.cut_within);
}

/* Power comes back: RAM holds anything until it is filled from the chip, and the sets are made anew from the list. */
static enum outcome power_on(struct demo *demo)
{
    const struct options *o = &demo->options;
    demo->chip.cells.fuse = fuse_of(demo);
    memset(demo->move.work, 0xA5, o->page_bytes);
    memset(demo->move.sets, 0xA5, mover_sets_bytes(o->blocks, o->pages));
    chip_load(&demo->chip, demo->move.store, demo->move.marks, demo->move.wear);
    demo->place = demo->last + 1;   /* forgotten as well */
    return mover_split_move(&demo->move) == MOVER_DONE ? DONE : wrong(demo, "the list was refused");
}

/* On a terminal the move goes slowly enough to be watched. */
static void rest(const struct demo *demo)
{
    struct timespec time = {0, (long)demo->options.pause * 1000000};
    if (demo->live && demo->options.pause > 0)
        nanosleep(&time, NULL);
}

/* From power-up to the end of the move, or to the next cut. */
static enum outcome go_on(struct demo *demo)
{
    enum outcome outcome = power_on(demo);
    if (outcome == DONE)
        outcome = read_some(demo, 4);    /* before anything is repaired */
    if (outcome == DONE) {
        outcome = recover(demo);
        demo->cut_recoveries += outcome == POWER_CUT;
    }
    while (outcome == DONE && demo->place < demo->last) {
        outcome = take_step(demo);
        print_progress(demo);
        rest(demo);
        if (outcome == DONE && random_below(&demo->random, 4) == 0)
            outcome = read_some(demo, 1);
    }
    return outcome;
}

/* The start of a move: random pages at rest on the chip, some of them pinned, and a list that has the others in random order, but for some
 * that are old wear logs and dropped. */

static void pin_some(struct demo *demo)
{
    uint32_t count = demo->options.blocks * demo->options.pages;
    memset(demo->pins, 0, count);
    for (uint32_t i = 0; i <= count / 32; i++)
        demo->pins[random_below(&demo->random, count)] = (uint8_t)(1 + random_below(&demo->random, 255));
}

static void shuffle(struct demo *demo)
{
    uint32_t count = demo->options.blocks * demo->options.pages, left = 0;
    uint32_t moving[64 * 64], order[64 * 64];
    for (uint32_t k = 0; k < count; k++) {
        mover_send(demo->list, k, k);
        if (demo->pins[k] == 0)
            moving[left++] = k;
    }
    for (uint32_t i = 0; i < left; i++) {
        uint32_t other = random_below(&demo->random, i + 1);
        order[i] = order[other];
        order[other] = i;
    }
    for (uint32_t i = 0; i < left; i++)
        mover_send(demo->list, moving[i], moving[order[i]]);
}

static void drop_some(struct demo *demo)
{
    uint32_t count = demo->options.blocks * demo->options.pages;
    for (uint32_t i = 0; i <= count / 32; i++) {
        uint32_t k = random_below(&demo->random, count);
        if (demo->pins[k] == 0)
            mover_drop(demo->list, k);
    }
}

static uint32_t entry_of(const struct demo *demo, uint32_t k)
{
    return demo->list[2 * k] + 256 * (uint32_t)demo->list[2 * k + 1];
}

/* Dropped pages lie on the chip like the others, but from the first call on nobody gets to see them. */
static void fill_chip(struct demo *demo)
{
    const struct options *o = &demo->options;
    uint32_t count = o->blocks * o->pages;
    random_bytes(&demo->random, demo->originals, (uint64_t)count * o->page_bytes);
    chip_fill(&demo->chip, demo->originals, demo->move.s);
    for (uint32_t k = 0; k < count; k++)
        if (entry_of(demo, k) == MOVER_DROPPED)
            memset(demo->originals + (uint64_t)k * o->page_bytes, 255, o->page_bytes);
}

/* The end of a move: the page at a number is as given, and marked. */
static int holds(const struct demo *demo, uint32_t number, const uint8_t *page)
{
    const struct mover_move *move = &demo->move;
    uint64_t slot = (uint64_t)move->m + number;
    return memcmp(move->store + slot * move->page_bytes, page, move->page_bytes) == 0 && move->marks[slot] == (move->s + 2) % 3;
}

/* Every page on the chip that is kept, read as after a power-up, is compared with its original; places that are left empty get their 0. */
static uint32_t pages_out_of_place(struct demo *demo, uint8_t *filled)
{
    const struct options *o = &demo->options;
    uint32_t bad = 0;
    chip_load(&demo->chip, demo->move.store, demo->move.marks, demo->move.wear);
    memset(filled, 0, (size_t)o->blocks * o->pages);
    for (uint32_t k = 0; k < o->blocks * o->pages; k++) {
        uint32_t number = entry_of(demo, k);
        if (number == MOVER_DROPPED)
            continue;
        filled[number] = 1;
        bad += !holds(demo, number, demo->originals + (uint64_t)k * o->page_bytes);
    }
    return bad;
}

/* The places that no page was sent to hold 255s: what dropped pages leave. */
static void count_emptied(struct demo *demo, const uint8_t *filled)
{
    uint8_t erased[4096];
    memset(erased, 255, sizeof erased);
    for (uint32_t number = 0; number < demo->options.blocks * demo->options.pages; number++)
        if (!filled[number]) {
            demo->emptied++;
            demo->emptied_wrong += !holds(demo, number, erased);
        }
}

/* The pinned pages are looked for at their old addresses, whatever the list says. */
static void count_pinned(struct demo *demo)
{
    const struct options *o = &demo->options;
    for (uint32_t k = 0; k < o->blocks * o->pages; k++)
        if (demo->pins[k] != 0) {
            const uint8_t *page = demo->move.store + (uint64_t)(o->pages + k) * o->page_bytes;
            demo->pinned++;
            demo->pinned_astray += memcmp(page, demo->originals + (uint64_t)k * o->page_bytes, o->page_bytes) != 0;
        }
}

/* One move through all its cuts. The data blocks have the letter after next then, which is where the next move starts. */
static void move_pages(struct demo *demo)
{
    uint32_t wrong_before = demo->reads_wrong, astray_before = demo->pinned_astray, emptied_before = demo->emptied_wrong, bad = 0;
    const struct options *o = &demo->options;
    uint8_t filled[64 * 64];
    enum outcome outcome;
    pin_some(demo);
    shuffle(demo);
    drop_some(demo);
    fill_chip(demo);
    while ((outcome = go_on(demo)) == POWER_CUT)
        demo->cuts++;
    demo->worn = outcome == WORN;
    if (outcome == WORN && read_some(demo, o->blocks * o->pages) == WRONG)
        outcome = WRONG;
    if (outcome == DONE) {
        bad = pages_out_of_place(demo, filled);
        count_pinned(demo);
        count_emptied(demo, filled);
        demo->moves_ended++;
        demo->moves_with_loss += bad != 0;
        demo->pages_lost += bad;
    }
    demo->moves_wrong += outcome == WRONG || bad != 0 || demo->pinned_astray != astray_before || demo->emptied_wrong != emptied_before
        || demo->reads_wrong != wrong_before;
    demo->move.s = (demo->move.s + 2) % 3;
}

static int prepare(struct demo *demo)
{
    const struct options *o = &demo->options;
    struct mover_move *move = &demo->move;
    demo->random = o->seed;
    demo->live = isatty(STDOUT_FILENO);
    demo->last = mover_last_place(o->blocks, o->pages);
    demo->chip.raw = o->raw;
    demo->chip.cells.rude = !o->plain;
    move->n = o->blocks;
    move->m = o->pages;
    move->page_bytes = o->page_bytes;
    move->s = o->letter;
    move->list = demo->list = malloc(mover_list_bytes(o->blocks, o->pages));
    move->pins = demo->pins = malloc(mover_pins_bytes(o->blocks, o->pages));
    move->sets = malloc(mover_sets_bytes(o->blocks, o->pages));
    move->store = malloc(mover_store_bytes(o->blocks, o->pages, o->page_bytes));
    move->marks = malloc(mover_marks_bytes(o->blocks, o->pages));
    move->work = malloc(o->page_bytes);
    move->wear = malloc(MOVER_WEAR_BYTES);
    for (uint32_t block = 0; block < MOVER_COUNTERS; block++)
        mover_set_counter(demo->chip.record, block, o->wear);
    mover_wear_refresh(demo->chip.record, MOVER_WEAR_BYTES);
    demo->originals = malloc(mover_store_bytes(o->blocks, o->pages, o->page_bytes));
    return demo->list != NULL && demo->pins != NULL && move->sets != NULL && move->store != NULL && move->marks != NULL
        && move->work != NULL && move->wear != NULL && demo->originals != NULL
        && chip_make(&demo->chip, o->blocks + 1, o->pages, o->page_bytes, random_next(&demo->random));
}

static void clear(struct demo *demo)
{
    free(demo->list);
    free(demo->pins);
    free(demo->move.sets);
    free(demo->move.store);
    free(demo->move.marks);
    free(demo->move.work);
    free(demo->move.wear);
    free(demo->originals);
    chip_free(&demo->chip);
}

int main(int count, char **words)
{
    static struct demo demo;
    int status = take_options(&demo.options, count, words);
    if (status != 0)
        return status == 1 ? 0 : status;
    if (!prepare(&demo)) {
        fprintf(stderr, "demo: no memory\n");
        clear(&demo);
        return 2;
    }
    print_start(&demo);
    for (uint32_t move = 0; move < demo.options.moves && !demo.worn; move++)
        move_pages(&demo);
    status = !print_end(&demo) ? 1 : demo.worn ? 3 : 0;
    clear(&demo);
    return status;
}
