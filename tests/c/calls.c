/* The library from C: the worked cases of the calls, and their refusals. */
#include "calls.h"
#include "mover.h"

#include <stdio.h>
#include <string.h>

static unsigned passed, failed;

void check(const char *what, int good)
{
    if (good) {
        passed++;
    } else {
        failed++;
        printf("FAILED: %s\n", what);
    }
}

/* No page of the small stores is pinned. */
static const uint8_t no_pins[4];

/* The call fills `sets`, or refuses and leaves them; 0xA5 stands behind them and must stay. */
static void splits_with(const char *what, uint32_t n, uint32_t m, uint32_t page_bytes, uint32_t s, const uint8_t *list,
                        uint64_t list_len, const uint8_t *pins, uint64_t pins_len, uint64_t sets_len, uint32_t number,
                        const uint8_t *expected)
{
    uint8_t sets[16], before[16];
    uint32_t got;
    memset(sets, 0xA5, sizeof sets);
    memcpy(before, sets, sizeof sets);
    if (expected != NULL)
        memcpy(before, expected, (size_t)sets_len);
    got = mover_split(n, m, page_bytes, s, list, list_len, pins, pins_len, sets, sets_len);
    check(what, got == number && memcmp(sets, before, sizeof sets) == 0);
}

static void splits(const char *what, uint32_t n, uint32_t m, uint32_t page_bytes, uint32_t s, const uint8_t *list, uint64_t list_len,
                   uint64_t sets_len, uint32_t number, const uint8_t *expected)
{
    splits_with(what, n, m, page_bytes, s, list, list_len, no_pins, n <= 2 ? n * m : 4, sets_len, number, expected);
}

/* The call recovers a store of 3 blocks of one page of one byte, or refuses and leaves it. */
static void mends(const char *what, const uint8_t *store, const uint8_t *marks, uint64_t marks_len, uint32_t s, uint32_t number,
                  uint32_t place, uint32_t erases, int block)
{
    uint8_t chip[4], tags[4], due_chip[4], due_tags[4], wear[MOVER_WEAR_BYTES] = {0}, due_wear[MOVER_WEAR_BYTES] = {0};
    uint32_t got, got_place = 77, got_erases = 77;
    memcpy(chip, store, 4);
    memcpy(tags, marks, 4);
    memcpy(due_chip, store, 4);
    memcpy(due_tags, marks, 4);
    if (block >= 0) {
        due_chip[block] = due_tags[block] = 255;
        mover_set_counter(due_wear, (uint32_t)block, 1);
        mover_set_counter(due_wear, MOVER_COUNTERS, 1);
        due_wear[MOVER_WEAR_BYTES - 1] = (uint8_t)block;
    }
    got = mover_mend(3, 1, 1, s, chip, 4, tags, marks_len, wear, MOVER_WEAR_BYTES, &got_place, &got_erases);
    check(what, got == number && got_place == place && got_erases == erases && memcmp(chip, due_chip, 4) == 0
                    && memcmp(tags, due_tags, 4) == 0 && memcmp(wear, due_wear, sizeof wear) == 0);
}

/* A store of (n + 1) * m pages of one byte with its marks, and the work page. */
struct chip {
    uint8_t store[6], marks[6], work[1];
};

struct due {
    uint32_t number, place, steps, writes, erases, finished, written_bytes, pages_read;
};

/* The call turns `before` into `after` and returns the numbers due. */
static void runs_with(const char *what, uint32_t n, uint32_t m, const uint8_t *list, const uint8_t *pins, uint64_t pins_len,
                      const uint8_t *sets, uint32_t place, uint32_t budget, const struct chip *before, struct due due,
                      const struct chip *after)
{
    struct chip chip = *before;
    struct due got = {77, 77, 77, 77, 77, 77, 77, 77};
    uint64_t slots = ((uint64_t)n + 1) * m;
    uint8_t wear[MOVER_WEAR_BYTES] = {0};
    uint32_t block, counted = 0;
    got.number = mover_run(n, m, 1, 0, list, 2 * (uint64_t)n * m, pins, pins_len, sets, (uint64_t)n * m, chip.store, slots, chip.marks,
                           slots, chip.work, 1, wear, MOVER_WEAR_BYTES, place, budget, UINT32_MAX, &got.place, &got.steps, &got.writes,
                           &got.erases, &got.finished, &got.written_bytes, &got.pages_read);
    for (block = 0; block < MOVER_COUNTERS; block++)
        counted += mover_counter(wear, block);
    check(what, memcmp(&got, &due, sizeof got) == 0 && memcmp(&chip, after, sizeof chip) == 0 && counted == due.erases);
}

static void runs(const char *what, uint32_t n, uint32_t m, const uint8_t *list, const uint8_t *sets, uint32_t place, uint32_t budget,
                 const struct chip *before, struct due due, const struct chip *after)
{
    runs_with(what, n, m, list, no_pins, (uint64_t)n * m, sets, place, budget, before, due, after);
}

static void runs_checked(void)
{
    static const uint8_t p1[] = {0, 0, 2, 0, 1, 0, 3, 0}, sets[] = {1, 0, 0, 1}, no_split[] = {0, 0, 1, 1}, set_2[] = {2, 0, 0, 1};
    static const uint8_t twice[] = {0, 0, 2, 0, 2, 0, 3, 0}, stays[] = {0, 0}, only[] = {0};
    static const struct chip rest = {{255, 255, 1, 2, 4, 8}, {255, 255, 0, 0, 0, 0}, {77}};
    static const struct chip coded_1 = {{6, 1, 1, 2, 4, 8}, {1, 1, 0, 0, 0, 0}, {1}};
    static const struct chip coded_2 = {{6, 1, 4, 8, 4, 8}, {1, 1, 1, 1, 0, 0}, {8}};
    static const struct chip end = {{255, 255, 1, 4, 2, 8}, {255, 255, 2, 2, 2, 2}, {4}};
    static const struct chip one = {{255, 9}, {255, 0}, {77}}, one_end = {{255, 9}, {255, 2}, {9}};
    static const struct chip soiled = {{255, 254, 1, 2, 4, 8}, {255, 255, 0, 0, 0, 0}, {77}};
    static const struct chip half = {{255, 255, 1, 2, 4, 8}, {255, 100, 0, 0, 0, 0}, {77}};
    static const struct due refused_3 = {.number = 3}, refused_4 = {.number = 4}, refused_5 = {.number = 5};

    runs("P3: block 0", 2, 2, p1, sets, 0, 2, &rest, (struct due){0, 2, 2, 2, 0, 0, 2, 3}, &coded_1);
    runs("P3: block 1", 2, 2, p1, sets, 2, 3, &coded_1, (struct due){0, 5, 3, 2, 1, 0, 2, 2}, &coded_2);
    runs("P3: the end", 2, 2, p1, sets, 5, UINT32_MAX, &coded_2, (struct due){0, 12, 7, 4, 3, 1, 4, 6}, &end);
    runs("P3: at once", 2, 2, p1, sets, 0, 12, &rest, (struct due){0, 12, 12, 8, 4, 1, 8, 11}, &end);
    runs("P4", 1, 1, stays, only, 0, 4, &one, (struct due){0, 4, 4, 2, 2, 1, 2, 2}, &one_end);
    runs("P8: at the end", 2, 2, p1, sets, 12, 9, &end, (struct due){0, 12, 0, 0, 0, 1, 0, 0}, &end);
    runs("P8: past the end", 2, 2, p1, sets, 13, 9, &end, refused_5, &end);
    runs("P11: budget 0", 2, 2, p1, sets, 0, 0, &rest, (struct due){0, 0, 0, 0, 0, 0, 0, 0}, &rest);
    runs("an entry met twice", 2, 2, twice, sets, 0, 9, &rest, refused_3, &rest);
    runs("no split", 2, 2, p1, no_split, 0, 9, &rest, refused_4, &rest);
    runs("a set of m", 2, 2, p1, set_2, 0, 9, &rest, refused_4, &rest);
    runs("marks of another place", 2, 2, p1, sets, 1, 9, &rest, refused_5, &rest);
    runs("a page marked 255 not blank", 2, 2, p1, sets, 0, 9, &soiled, refused_5, &soiled);
    runs("a half-written mark where 255 is due", 2, 2, p1, sets, 0, 9, &half, refused_5, &half);
    runs("3 before 5", 2, 2, twice, sets, 13, 9, &rest, refused_3, &rest);
}

static void splits_checked(void)
{
    static const uint8_t p1[] = {0, 0, 2, 0, 1, 0, 3, 0}, p1_sets[] = {1, 0, 0, 1};
    static const uint8_t p2[] = {0, 0, 3, 0, 2, 0, 1, 0}, p2_sets[] = {0, 1, 0, 1};
    static const uint8_t twice[] = {0, 0, 0, 0}, high[] = {0, 0, 2, 0}, large[] = {0, 0, 1, 1};

    splits("P1", 2, 2, 1, 0, p1, 8, 4, MOVER_DONE, p1_sets);
    splits("P2", 2, 2, 4096, 2, p2, 8, 4, MOVER_DONE, p2_sets);
    splits("P5: an entry met twice", 2, 1, 1, 0, twice, 4, 2, MOVER_BAD_LIST, NULL);
    splits("an entry at n * m", 2, 1, 1, 0, high, 4, 2, MOVER_BAD_LIST, NULL);
    splits("the high byte counts", 2, 1, 1, 0, large, 4, 2, MOVER_BAD_LIST, NULL);
    splits("P6: n = 0", 0, 2, 1, 0, p1, 8, 4, MOVER_BAD_SIZES, NULL);
    splits("P7: n = 65", 65, 2, 1, 0, p1, 8, 4, MOVER_BAD_SIZES, NULL);
    splits("n = 2^32 - 1", UINT32_MAX, UINT32_MAX, 1, 0, p1, 8, 4, MOVER_BAD_SIZES, NULL);
    splits("page_bytes = 4097", 2, 2, 4097, 0, p1, 8, 4, MOVER_BAD_SIZES, NULL);
    splits("s = 3", 2, 2, 1, 3, p1, 8, 4, MOVER_BAD_SIZES, NULL);
    splits("an odd number of bytes", 2, 2, 1, 0, p1, 7, 4, MOVER_BAD_LENGTH, NULL);
    splits("a list too short", 2, 2, 1, 0, p1, 6, 4, MOVER_BAD_LENGTH, NULL);
    splits("sets too short", 2, 2, 1, 0, p1, 8, 3, MOVER_BAD_LENGTH, NULL);
    splits("sets too long", 2, 2, 1, 0, p1, 8, 5, MOVER_BAD_LENGTH, NULL);
    splits("nothing lent", 2, 2, 1, 0, NULL, 0, 0, MOVER_BAD_LENGTH, NULL);
    splits("1 before 2", 0, 2, 1, 0, p1, 7, 3, MOVER_BAD_SIZES, NULL);
    splits("2 before 3", 2, 1, 1, 0, twice, 4, 3, MOVER_BAD_LENGTH, NULL);
}

static void mends_checked(void)
{
    static const uint8_t torn[] = {5, 3, 77, 4}, torn_marks[] = {1, 1, 255, 0};
    static const uint8_t whole_marks[] = {1, 1, 0, 0}, end[] = {255, 4, 1, 2}, end_marks[] = {255, 2, 2, 2};
    static const uint8_t half_marks[] = {1, 1, 100, 0}, two_marks[] = {1, 255, 255, 0}, two_half_marks[] = {1, 3, 100, 0};

    mends("P9", torn, torn_marks, 4, 0, MOVER_DONE, 4, 1, 2);
    mends("P10", end, end_marks, 4, 0, MOVER_DONE, 12, 1, 0);
    mends("nothing unfinished", torn, whole_marks, 4, 0, MOVER_DONE, 3, 0, -1);
    mends("P9 with a half-written mark", torn, half_marks, 4, 0, MOVER_DONE, 4, 1, 2);
    mends("two unfinished", torn, two_marks, 4, 0, MOVER_BAD_MARKS, 0, 0, -1);
    mends("two half-written", torn, two_half_marks, 4, 0, MOVER_BAD_MARKS, 0, 0, -1);
    mends("marks too short", torn, torn_marks, 3, 0, MOVER_BAD_LENGTH, 0, 0, -1);
    mends("s = 3", torn, torn_marks, 4, 3, MOVER_BAD_SIZES, 0, 0, -1);
}

/* The call puts a page of one byte, which is not 255, in the work page, or refuses and leaves it; the byte behind it must stay. */
static void reads_with(const char *what, uint32_t n, uint32_t m, const uint8_t *list, const uint8_t *pins, uint64_t pins_len,
                       const uint8_t *sets, const uint8_t *store, const uint8_t *marks, uint64_t work_len, uint32_t original,
                       uint32_t number, uint32_t count, uint8_t page)
{
    uint8_t work[] = {77, 99};
    uint32_t got, got_count = 77, got_bytes = 77;
    uint64_t slots = ((uint64_t)n + 1) * m;
    got = mover_read(n, m, 1, 0, list, 2 * (uint64_t)n * m, pins, pins_len, sets, (uint64_t)n * m, store, slots, marks, slots, work,
                     work_len, original, &got_count, &got_bytes);
    check(what, got == number && got_count == count && got_bytes == (number == MOVER_DONE) && work[0] == page && work[1] == 99);
}

static void reads(const char *what, uint32_t n, uint32_t m, const uint8_t *list, const uint8_t *sets, const uint8_t *store,
                  const uint8_t *marks, uint64_t work_len, uint32_t original, uint32_t number, uint32_t count, uint8_t page)
{
    reads_with(what, n, m, list, no_pins, (uint64_t)n * m, sets, store, marks, work_len, original, number, count, page);
}

static void reads_checked(void)
{
    static const uint8_t p1[] = {0, 0, 2, 0, 1, 0, 3, 0}, sets[] = {1, 0, 0, 1}, no_split[] = {0, 0, 1, 1};
    static const uint8_t twice[] = {0, 0, 2, 0, 2, 0, 3, 0};
    static const uint8_t rest[] = {255, 255, 1, 2, 4, 8}, rest_marks[] = {255, 255, 0, 0, 0, 0};
    static const uint8_t torn[] = {6, 1, 4, 77, 4, 8}, torn_marks[] = {1, 1, 1, 255, 0, 0};
    static const uint8_t end[] = {255, 255, 1, 4, 2, 8}, end_marks[] = {255, 255, 2, 2, 2, 2};
    static const uint8_t half_marks[] = {1, 1, 1, 100, 0, 0}, two_half_marks[] = {1, 1, 1, 100, 3, 0};
    static const uint8_t turn[] = {1, 0, 2, 0, 0, 0}, only[] = {0, 0, 0}, cut[] = {5, 3, 77, 4}, cut_marks[] = {1, 1, 255, 0};

    reads("at rest", 2, 2, p1, sets, rest, rest_marks, 1, 3, MOVER_DONE, 1, 8);
    reads("in a torn block's place, by a cycle of one", 2, 2, p1, sets, torn, torn_marks, 1, 0, MOVER_DONE, 1, 1);
    reads("in a torn block's place, by the block above", 2, 2, p1, sets, torn, torn_marks, 1, 1, MOVER_DONE, 2, 2);
    reads("at the end", 2, 2, p1, sets, end, end_marks, 1, 1, MOVER_DONE, 1, 2);
    reads("between cut and recovery, two pages", 3, 1, turn, only, cut, cut_marks, 1, 0, MOVER_DONE, 2, 1);
    reads("between cut and recovery, three pages", 3, 1, turn, only, cut, cut_marks, 1, 1, MOVER_DONE, 3, 2);
    reads("no such original", 2, 2, p1, sets, rest, rest_marks, 1, 4, MOVER_BAD_ORIGINAL, 0, 77);
    reads("with a half-written mark, by a cycle of one", 2, 2, p1, sets, torn, half_marks, 1, 0, MOVER_DONE, 1, 1);
    reads("with a half-written mark, by the block above", 2, 2, p1, sets, torn, half_marks, 1, 1, MOVER_DONE, 2, 2);
    reads("two half-written", 2, 2, p1, sets, torn, two_half_marks, 1, 0, MOVER_BAD_MARKS, 0, 77);
    reads("6 before 7", 2, 2, p1, sets, torn, two_half_marks, 1, 4, MOVER_BAD_MARKS, 0, 77);
    reads("no split", 2, 2, p1, no_split, rest, rest_marks, 1, 0, MOVER_BAD_SPLIT, 0, 77);
    reads("an entry met twice", 2, 2, twice, sets, rest, rest_marks, 1, 0, MOVER_BAD_LIST, 0, 77);
    reads("work page too short", 2, 2, p1, sets, rest, rest_marks, 0, 0, MOVER_BAD_LENGTH, 0, 77);
    reads("n = 0", 0, 2, p1, sets, rest, rest_marks, 1, 0, MOVER_BAD_SIZES, 0, 77);
}

/* Pages 0 and 3 may be pinned where 1 and 2 trade places. A list that moves a pinned page is 11, whatever else is wrong after 3. */
static void pins_checked(void)
{
    static const uint8_t p1[] = {0, 0, 2, 0, 1, 0, 3, 0}, twice[] = {0, 0, 2, 0, 2, 0, 3, 0}, high[] = {0, 0, 2, 0, 1, 0, 4, 0};
    static const uint8_t sets[] = {1, 0, 0, 1}, bad_sets[] = {2, 0, 0, 1}, keeping[] = {1, 0, 0, 200}, moving[] = {0, 2, 0, 0};
    static const uint8_t moving_255[] = {0, 0, 255, 0}, stays[] = {0, 0, 1, 0, 2, 0, 3, 0}, all[] = {1, 2, 128, 255};
    static const uint8_t stays_sets[] = {0, 1, 0, 1}, odd_marks[] = {3, 255, 0, 0, 0, 0};
    static const struct chip rest = {{255, 255, 1, 2, 4, 8}, {255, 255, 0, 0, 0, 0}, {77}};
    static const struct chip end = {{255, 255, 1, 4, 2, 8}, {255, 255, 2, 2, 2, 2}, {4}};
    static const struct due refused_2 = {.number = 2}, refused_3 = {.number = 3}, refused_11 = {.number = 11};

    splits_with("pinned pages that stay", 2, 2, 1, 0, p1, 8, keeping, 4, 4, MOVER_DONE, sets);
    splits_with("all pinned, and all stay", 2, 2, 1, 0, stays, 8, all, 4, 4, MOVER_DONE, stays_sets);
    splits_with("a pinned page that moves", 2, 2, 1, 0, p1, 8, moving, 4, 4, MOVER_BAD_PINS, NULL);
    splits_with("a pin of 255 on one that moves", 2, 2, 1, 0, p1, 8, moving_255, 4, 4, MOVER_BAD_PINS, NULL);
    splits_with("3 before 11", 2, 2, 1, 0, twice, 8, moving, 4, 4, MOVER_BAD_LIST, NULL);
    splits_with("3 before 11, by an entry of n * m", 2, 2, 1, 0, high, 8, keeping, 4, 4, MOVER_BAD_LIST, NULL);
    splits_with("pins too short", 2, 2, 1, 0, p1, 8, keeping, 3, 4, MOVER_BAD_LENGTH, NULL);
    splits_with("no pins at all", 2, 2, 1, 0, p1, 8, NULL, 0, 4, MOVER_BAD_LENGTH, NULL);
    splits_with("pins too long", 2, 1, 1, 0, twice, 4, keeping, 3, 2, MOVER_BAD_LENGTH, NULL);
    runs_with("run with pins", 2, 2, p1, keeping, 4, sets, 0, 12, &rest, (struct due){0, 12, 12, 8, 4, 1, 8, 11}, &end);
    runs_with("run, 11", 2, 2, p1, moving, 4, sets, 0, 12, &rest, refused_11, &rest);
    runs_with("run, 11 before 4", 2, 2, p1, moving, 4, bad_sets, 0, 12, &rest, refused_11, &rest);
    runs_with("run, 11 before 5", 2, 2, p1, moving, 4, sets, 13, 12, &rest, refused_11, &rest);
    runs_with("run, 3 before 11", 2, 2, twice, moving, 4, sets, 0, 12, &rest, refused_3, &rest);
    runs_with("run, pins too short", 2, 2, p1, keeping, 3, sets, 0, 12, &rest, refused_2, &rest);
    reads_with("read with pins", 2, 2, p1, keeping, 4, sets, rest.store, rest.marks, 1, 3, MOVER_DONE, 1, 8);
    reads_with("read, 11", 2, 2, p1, moving, 4, sets, rest.store, rest.marks, 1, 3, MOVER_BAD_PINS, 0, 77);
    reads_with("read, 11 before 4", 2, 2, p1, moving, 4, bad_sets, rest.store, rest.marks, 1, 3, MOVER_BAD_PINS, 0, 77);
    reads_with("read, 11 before 6", 2, 2, p1, moving, 4, sets, rest.store, odd_marks, 1, 3, MOVER_BAD_PINS, 0, 77);
    reads_with("read, 11 before 7", 2, 2, p1, moving, 4, sets, rest.store, rest.marks, 1, 4, MOVER_BAD_PINS, 0, 77);
    reads_with("read, pins too short", 2, 2, p1, keeping, 3, sets, rest.store, rest.marks, 1, 3, MOVER_BAD_LENGTH, 0, 77);
    check("the length of pins", mover_pins_bytes(64, 64) == 4096 && mover_pins_bytes(2, 3) == 6);
}

/* In mid-move a pinned page is not at its old address, but at the end it is. */
static void pins_travel_checked(void)
{
    static const uint8_t list[] = {0, 0, 2, 0, 1, 0, 3, 0}, pins[] = {1, 0, 0, 1};
    uint8_t sets[4], store[] = {255, 255, 1, 2, 4, 8}, marks[] = {255, 255, 0, 0, 0, 0}, work[1];
    uint8_t wear[MOVER_WEAR_BYTES] = {0};
    struct mover_move move = {2, 2, 1, 0, list, pins, sets, store, marks, work, wear};
    struct mover_state at = {77, 77, 77, 77, 77, 77, 77};
    uint32_t count, bytes;
    check("the list keeps them", mover_split_move(&move) == MOVER_DONE);
    check("half of the move", mover_run_move(&move, 0, 5, 2, &at) == MOVER_DONE && store[2] != 1 && store[5] == 8);
    check("one more erase", mover_run_move(&move, 5, 1, 2, &at) == MOVER_DONE && store[5] == 255);
    check("both can be read", mover_read_move(&move, 0, &count, &bytes) == MOVER_DONE && work[0] == 1
                                  && mover_read_move(&move, 3, &count, &bytes) == MOVER_DONE && work[0] == 8);
    check("the end", mover_run_move(&move, 6, UINT32_MAX, 2, &at) == MOVER_DONE && at.finished && store[2] == 1 && store[5] == 8);
}

/* Two pages of two bytes trade places, one of them half 255 and the other 255 throughout. Their sum, which is written first, has no 255. */
static void bytes_checked(void)
{
    static const uint8_t list[] = {1, 0, 0, 0};
    static const uint32_t due[] = {2, 0, 0, 0, 1, 0, 0, 0};
    uint8_t sets[] = {0, 0}, store[] = {255, 255, 255, 3, 255, 255}, marks[] = {255, 0, 0}, work[2], rest[6], rest_marks[3];
    uint8_t wear[MOVER_WEAR_BYTES] = {0};
    struct mover_move move = {2, 1, 2, 0, list, no_pins, sets, store, marks, work, wear};
    struct mover_state at = {77, 77, 77, 77, 77, 77, 77};
    uint32_t count = 77, bytes = 77, place;
    memcpy(rest, store, sizeof rest);
    memcpy(rest_marks, marks, sizeof rest_marks);
    check("one byte read", mover_read_move(&move, 0, &count, &bytes) == MOVER_DONE && count == 1 && bytes == 1);
    check("no byte read", mover_read_move(&move, 1, &count, &bytes) == MOVER_DONE && count == 1 && bytes == 0);
    bytes = 77;
    check("a refused read counts none", mover_read_move(&move, 2, &count, &bytes) == MOVER_BAD_ORIGINAL && count == 0 && bytes == 0);
    for (place = 0; place < 8; place++)
        check("the bytes of a step", mover_run_move(&move, place, 1, UINT32_MAX, &at) == MOVER_DONE && at.written_bytes == due[place]);
    memcpy(store, rest, sizeof rest);
    memcpy(marks, rest_marks, sizeof rest_marks);
    check("the bytes of a move", mover_run_move(&move, 0, UINT32_MAX, UINT32_MAX, &at) == MOVER_DONE && at.writes == 4 && at.written_bytes == 3);
    at.written_bytes = 77;
    check("recovery writes none", mover_mend_move(&move, &at) == MOVER_DONE && at.written_bytes == 0);
    at.written_bytes = 77;
    check("a refused run counts none", mover_run_move(&move, 0, 8, UINT32_MAX, &at) == MOVER_BAD_PLACE && at.written_bytes == 0);
}

/* The most that a run can count: pages of zeros, whose sums are zeros too, and every size at its limit. */
static void most_bytes_checked(void)
{
    enum { N = 64, M = 64, P = 4096 };
    static uint8_t list[2 * N * M], pins[N * M], sets[N * M], store[(N + 1) * M * P], marks[(N + 1) * M], work[P];
    static uint8_t wear[MOVER_WEAR_BYTES];
    static const struct mover_move move = {N, M, P, 0, list, pins, sets, store, marks, work, wear};
    struct mover_state at;
    uint32_t k;
    memset(store, 255, M * P);
    memset(marks, 255, M);
    for (k = 0; k < N * M; k++)
        mover_send(list, k, N * M - 1 - k);
    check("the biggest list", mover_split_move(&move) == MOVER_DONE);
    check("the biggest move", mover_run_move(&move, 0, UINT32_MAX, 2, &at) == MOVER_DONE && at.finished);
    check("every byte of every page", at.written_bytes == 33554432);
}

/* The call tells the step at a place of a move of 3 blocks of one page with s = 2. */
static void tells(const char *what, uint32_t n, uint32_t place, uint32_t number, uint32_t kind, uint32_t block, uint32_t page,
                  uint32_t mark)
{
    uint32_t got[5] = {77, 77, 77, 77, 77};
    got[0] = mover_operation(n, 1, 2, place, &got[1], &got[2], &got[3], &got[4]);
    check(what, got[0] == number && got[1] == kind && got[2] == block && got[3] == page && got[4] == mark);
}

static void tells_checked(void)
{
    tells("the first write", 3, 0, MOVER_DONE, MOVER_WRITE, 0, 0, 0);
    tells("the first erase", 3, 1, MOVER_DONE, MOVER_ERASE, 1, 0, 0);
    tells("the last erase forward", 3, 5, MOVER_DONE, MOVER_ERASE, 3, 0, 0);
    tells("the first write backward", 3, 6, MOVER_DONE, MOVER_WRITE, 3, 0, 1);
    tells("the last erase", 3, 11, MOVER_DONE, MOVER_ERASE, 0, 0, 0);
    tells("no step left", 3, 12, MOVER_DONE, MOVER_END, 0, 0, 0);
    tells("past the end", 3, 13, MOVER_BAD_PLACE, 0, 0, 0, 0);
    tells("n = 65", 65, 13, MOVER_BAD_SIZES, 0, 0, 0, 0);
}

int main(void)
{
    splits_checked();
    runs_checked();
    mends_checked();
    reads_checked();
    pins_checked();
    pins_travel_checked();
    drops_checked();
    wear_checked();
    highest_checked();
    pages_read_checked();
    bytes_checked();
    most_bytes_checked();
    tells_checked();
    listing_checked();
    reach_checked();
    orders_checked();
    rebuild_checked();
    hex_checked();
    printf("%u passed, %u failed\n", passed, failed);
    return failed != 0 || passed == 0;
}
