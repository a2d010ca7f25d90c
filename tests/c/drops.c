/* Dropped pages from C: lists that are split and refused, and worked moves, each step of them. */
#include "calls.h"
#include "mover.h"

#include <string.h>

enum { X = MOVER_DROPPED };

/* A move of pages of one byte with s = 0, at rest. */
struct moved {
    uint8_t list[8], before[8], pins[4], sets[4], store[6], marks[6], work[1], wear[MOVER_WEAR_BYTES];
    struct mover_move move;
};

static void begin(struct moved *moved, uint32_t n, uint32_t m, const uint32_t *entries)
{
    const struct mover_move move = {n, m, 1, 0, moved->list, moved->pins, moved->sets, moved->store, moved->marks, moved->work,
                                    moved->wear};
    uint32_t k;
    memset(moved, 0, sizeof *moved);
    memset(moved->store, 255, sizeof moved->store);
    memset(moved->marks, 255, m);
    for (k = 0; k < n * m; k++) {
        mover_send(moved->list, k, entries[k]);
        moved->store[m + k] = (uint8_t)(1 << k);
    }
    memcpy(moved->before, moved->list, sizeof moved->list);
    moved->work[0] = 77;
    moved->move = move;
}

/* The list of two blocks of two pages is split into these sets, or refused. */
static void splits_to(const char *what, const uint32_t *entries, const uint8_t *pins, uint32_t number, const uint8_t *sets)
{
    struct moved moved;
    begin(&moved, 2, 2, entries);
    memcpy(moved.pins, pins, 4);
    memset(moved.sets, 99, 4);
    check(what, mover_split_move(&moved.move) == number && memcmp(moved.list, moved.before, 8) == 0
                    && (number == MOVER_DONE ? memcmp(moved.sets, sets, 4) == 0 : moved.sets[0] == 99 && moved.sets[3] == 99));
}

static void lists_checked(void)
{
    static const uint32_t two[] = {X, 2, X, 0}, all[] = {X, X, X, X}, one[] = {X, 2, 1, 3};
    static const uint32_t twice[] = {X, 2, X, 2}, high[] = {X, 4, X, 0}, below[] = {X, 2, 65534, 0};
    static const uint8_t none[] = {0, 0, 0, 0}, pinned[] = {1, 0, 255, 0}, second[] = {0, 0, 3, 0}, moving[] = {0, 0, 0, 1};
    static const uint8_t two_sets[] = {0, 1, 0, 1}, one_sets[] = {1, 0, 0, 1};

    splits_to("two dropped: split as 1 2 3 0", two, none, MOVER_DONE, two_sets);
    splits_to("all dropped: split as 0 1 2 3", all, none, MOVER_DONE, two_sets);
    splits_to("one dropped: split as P1", one, none, MOVER_DONE, one_sets);
    splits_to("both pinned", two, pinned, MOVER_BAD_PINS, NULL);
    splits_to("one of them pinned", two, second, MOVER_BAD_PINS, NULL);
    splits_to("both pinned, and an entry twice", twice, pinned, MOVER_BAD_LIST, NULL);
    splits_to("a pinned page moves beside a dropped one", two, moving, MOVER_BAD_PINS, NULL);
    splits_to("an entry twice beside drops", twice, none, MOVER_BAD_LIST, NULL);
    splits_to("an entry of n * m beside drops", high, none, MOVER_BAD_LIST, NULL);
    splits_to("an entry of 65534", below, none, MOVER_BAD_LIST, NULL);
}

/* Run and read ask for a split of the list with its dropped pages at their places. */
static void sets_checked(void)
{
    static const uint32_t two[] = {X, 2, X, 0};
    static const uint8_t other[] = {1, 0, 0, 1}, named_anew[] = {1, 0, 1, 0};
    struct moved moved;
    struct mover_state at;
    uint32_t count, bytes;
    begin(&moved, 2, 2, two);
    memcpy(moved.sets, other, 4);
    check("run: sets of another list", mover_run_move(&moved.move, 0, 9, UINT32_MAX, &at) == MOVER_BAD_SPLIT && moved.work[0] == 77);
    check("read: sets of another list", mover_read_move(&moved.move, 0, &count, &bytes) == MOVER_BAD_SPLIT && moved.work[0] == 77);
    memcpy(moved.sets, named_anew, 4);
    check("run: another split", mover_run_move(&moved.move, 0, 9, UINT32_MAX, &at) == MOVER_DONE && at.steps == 9);
}

/* What read answers: the page, how many pages it summed, and how many of its bytes are not 255. */
static int reads_as(const struct moved *moved, uint32_t original, uint8_t page, uint32_t count)
{
    uint32_t got_count = 77, got_bytes = 77;
    moved->move.work[0] = 77;
    return mover_read_move(&moved->move, original, &got_count, &got_bytes) == MOVER_DONE && moved->work[0] == page
           && got_count == count && got_bytes == (page != 255);
}

/* The step program's case with page 1 dropped. Nobody fills place 2, so that the pages go as in 1 2 0. */
static void steps_checked(void)
{
    static const uint32_t entries[] = {1, X, 0};
    static const uint8_t stores[13][4] = {{255, 1, 2, 4},     {5, 1, 2, 4},       {5, 255, 2, 4},     {5, 254, 2, 4},  {5, 254, 255, 4},
                                          {5, 254, 4, 4},     {5, 254, 4, 255},   {5, 254, 4, 255},   {5, 254, 255, 255},
                                          {5, 254, 1, 255},   {5, 255, 1, 255},   {5, 4, 1, 255},     {255, 4, 1, 255}};
    static const uint8_t marks[13][4] = {{255, 0, 0, 0}, {1, 0, 0, 0},   {1, 255, 0, 0}, {1, 1, 0, 0},   {1, 1, 255, 0},
                                         {1, 1, 1, 0},   {1, 1, 1, 255}, {1, 1, 1, 2},   {1, 1, 255, 2}, {1, 1, 2, 2},
                                         {1, 255, 2, 2}, {1, 2, 2, 2},   {255, 2, 2, 2}};
    static const uint8_t first[] = {1, 1, 2, 2, 2, 2, 2, 2, 2, 1, 1, 1, 1}, third[] = {1, 1, 1, 1, 1, 1, 1, 1, 3, 2, 2, 1, 1};
    static const uint8_t bytes[] = {1, 0, 1, 0, 1, 0, 0, 0, 1, 0, 1, 0};
    struct moved moved;
    struct mover_state at;
    uint32_t place;
    begin(&moved, 3, 1, entries);
    check("split", mover_split_move(&moved.move) == MOVER_DONE);
    for (place = 0; place <= 12; place++) {
        check("the store of a place", memcmp(moved.store, stores[place], 4) == 0 && memcmp(moved.marks, marks[place], 4) == 0);
        check("page 0", reads_as(&moved, 0, 1, first[place]));
        check("page 1, dropped", reads_as(&moved, 1, 255, 0));
        check("page 2", reads_as(&moved, 2, 4, third[place]));
        if (place < 12)
            check("a step", mover_run_move(&moved.move, place, 1, UINT32_MAX, &at) == MOVER_DONE && at.written_bytes == bytes[place]);
    }
    check("finished", at.finished == 1 && memcmp(moved.list, moved.before, 8) == 0);
    begin(&moved, 3, 1, entries);
    check("at once", mover_run_move(&moved.move, 0, UINT32_MAX, UINT32_MAX, &at) == MOVER_DONE && at.finished && at.written_bytes == 5
                         && memcmp(moved.store, stores[12], 4) == 0 && memcmp(moved.marks, marks[12], 4) == 0);
}

/* Where a read ends at a dropped page: not stored bytes but 255s in a block full of s, the stored page in one full of s + 2. */
static void ends_checked(void)
{
    static const uint32_t last[] = {1, 2, X}, middle[] = {1, X, 0};
    struct moved moved;
    struct mover_state at;
    begin(&moved, 3, 1, last);
    check("to place 2", mover_run_move(&moved.move, 0, 2, UINT32_MAX, &at) == MOVER_DONE && moved.store[0] == 254 && moved.store[3] == 4);
    check("ends at a page still stored, which is dropped", reads_as(&moved, 0, 1, 1));
    moved.store[3] = 119;
    check("whatever its bytes are", reads_as(&moved, 0, 1, 1));
    begin(&moved, 3, 1, middle);
    check("to place 8", mover_run_move(&moved.move, 0, 8, UINT32_MAX, &at) == MOVER_DONE && moved.store[3] == 255);
    moved.store[3] = 119;
    check("ends where the dropped page has left its 255s", reads_as(&moved, 0, 254 ^ 119, 2));
}

/* Refusals come before the 255s. */
static void refused_checked(void)
{
    static const uint32_t entries[] = {1, X, 0};
    struct moved moved;
    uint32_t count = 77, bytes = 77;
    begin(&moved, 3, 1, entries);
    memset(moved.marks, 1, 4);
    check("marks of no moment", mover_read_move(&moved.move, 1, &count, &bytes) == MOVER_BAD_MARKS && moved.work[0] == 77 && count == 0);
    begin(&moved, 3, 1, entries);
    moved.pins[0] = 1;
    check("a pinned page moves", mover_read_move(&moved.move, 1, &count, &bytes) == MOVER_BAD_PINS && moved.work[0] == 77);
    moved.pins[0] = 0;
    moved.pins[1] = 1;
    moved.work[0] = 77;
    check("the dropped one pinned", mover_read_move(&moved.move, 1, &count, &bytes) == MOVER_BAD_PINS && moved.work[0] == 77);
}

static void all_checked(void)
{
    static const uint32_t all[] = {X, X, X, X};
    static const uint8_t blank[] = {255, 255, 255, 255, 255, 255}, marks[] = {255, 255, 2, 2, 2, 2};
    struct moved moved;
    struct mover_state at;
    begin(&moved, 2, 2, all);
    check("all dropped", mover_split_move(&moved.move) == MOVER_DONE);
    check("moved", mover_run_move(&moved.move, 0, UINT32_MAX, UINT32_MAX, &at) == MOVER_DONE && at.writes == 8 && at.written_bytes == 0);
    check("255s, and marked", memcmp(moved.store, blank, 6) == 0 && memcmp(moved.marks, marks, 6) == 0);
}

void drops_checked(void)
{
    lists_checked();
    sets_checked();
    steps_checked();
    ends_checked();
    refused_checked();
    all_checked();
}
