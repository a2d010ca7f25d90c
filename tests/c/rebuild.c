/* One page unreadable, from C: what is rebuilt without the page of a slot, what is lost, and the refusals. */
#include "calls.h"
#include "mover.h"

#include <string.h>

enum { GUARD = 0xA5, AT = 4, ROOM = 16, X = MOVER_DROPPED };

/* All that is lent. The two areas lie between guard bytes, from AT on. */
struct memory {
    uint8_t list[2 * ROOM], pins[ROOM], sets[ROOM], store[ROOM], marks[ROOM], area[ROOM], flags[ROOM];
};

/* A call: the numbers, and the lengths that it is told. */
struct call {
    uint32_t n, m, page_bytes, s, slot;
    uint64_t list_len, pins_len, sets_len, store_len, marks_len, area_len, flags_len;
};

static struct call sized(uint32_t n, uint32_t m, uint32_t s, uint32_t slot)
{
    const struct call call = {n, m, 1, s, slot, mover_list_bytes(n, m), mover_pins_bytes(n, m), mover_sets_bytes(n, m),
                              mover_store_bytes(n, m, 1), mover_marks_bytes(n, m), mover_area_bytes(n, m, 1), mover_flags_bytes(n, m)};
    return call;
}

static void lend(struct memory *memory, uint32_t n, uint32_t m, const uint32_t *entries, const uint8_t *sets, const uint8_t *store,
                 const uint8_t *marks)
{
    uint32_t k;
    memset(memory, GUARD, sizeof *memory);
    memset(memory->pins, 0, ROOM);
    for (k = 0; k < n * m; k++)
        mover_send(memory->list, k, entries[k]);
    memcpy(memory->sets, sets, n * m);
    memcpy(memory->store, store, (n + 1) * m);
    memcpy(memory->marks, marks, (n + 1) * m);
}

static uint32_t rebuild(struct memory *memory, const struct call *c)
{
    return mover_rebuild(c->n, c->m, c->page_bytes, c->s, memory->list, c->list_len, memory->pins, c->pins_len, memory->sets, c->sets_len,
                         memory->store, c->store_len, memory->marks, c->marks_len, memory->area + AT, c->area_len, memory->flags + AT,
                         c->flags_len, c->slot);
}

/* The call leaves these pages of one byte and these flags, and nothing else is changed. */
static void leaves(const char *what, const struct memory *before, const struct call *call, const uint8_t *area, const uint8_t *flags)
{
    struct memory memory = *before, due = *before;
    memcpy(due.area + AT, area, call->n * call->m);
    memcpy(due.flags + AT, flags, call->n * call->m);
    check(what, rebuild(&memory, call) == MOVER_DONE && memcmp(&memory, &due, sizeof due) == 0);
}

/* ---- the step program's case: three blocks of a page, which go round */
static const uint32_t round_list[] = {1, 2, 0};
static const uint8_t one_set[3] = {0};

/* With every s, and whatever byte the slot has. */
static void three(const char *what, const uint8_t *store, const uint8_t *marks, uint32_t slot, const uint8_t *area, const uint8_t *flags)
{
    struct memory memory;
    struct call call;
    uint8_t letters[4];
    uint32_t s, i, byte;
    for (s = 0; s < 3; s++)
        for (byte = 0; byte < 256; byte += 85) {
            for (i = 0; i < 4; i++)
                letters[i] = (uint8_t)(marks[i] > 2 ? marks[i] : (marks[i] + s) % 3);
            lend(&memory, 3, 1, round_list, one_set, store, letters);
            memory.store[slot] ^= (uint8_t)byte;
            call = sized(3, 1, s, slot);
            leaves(what, &memory, &call, area, flags);
        }
}

static void three_checked(void)
{
    static const uint8_t all[] = {1, 2, 4}, yes[] = {1, 1, 1};
    static const uint8_t torn[] = {5, 3, 77, 4}, torn_marks[] = {1, 1, 255, 0}, half_marks[] = {1, 1, 100, 0};
    static const uint8_t filled[] = {5, 3, 2, 4}, filled_marks[] = {1, 1, 0, 0}, odd[] = {5, 3, 2, 100};
    static const uint8_t written[] = {5, 3, 1, 2}, written_marks[] = {1, 1, 2, 2};
    static const uint8_t rest[] = {255, 1, 2, 4}, rest_marks[] = {255, 0, 0, 0}, end[] = {255, 4, 1, 2}, end_marks[] = {255, 2, 2, 2};
    uint32_t slot;

    three("a torn block, its own slot", torn, torn_marks, 2, all, yes);
    three("the first coded page: two originals", torn, torn_marks, 0, (const uint8_t *)"\377\377\4", (const uint8_t *)"\0\0\1");
    three("the second: one", torn, torn_marks, 1, (const uint8_t *)"\1\377\4", (const uint8_t *)"\1\0\1");
    three("the page that all sums end at", torn, torn_marks, 3, (const uint8_t *)"\377\377\377", (const uint8_t *)"\0\0\0");
    three("a half-written mark, its own slot", torn, half_marks, 2, all, yes);
    three("a half-written mark, another", torn, half_marks, 1, (const uint8_t *)"\1\377\4", (const uint8_t *)"\1\0\1");

    for (slot = 0; slot < 4; slot++)
        three("no block torn, forward: any one page can be spared", filled, filled_marks, slot, all, yes);
    three("no block torn, nonsense: read's sum comes first", odd, filled_marks, 1, (const uint8_t *)"\141\2\144", yes);
    three("the other one where it cannot be had", odd, filled_marks, 0, (const uint8_t *)"\1\2\144", yes);

    three("backward: a coded page that one original needs", written, written_marks, 0, (const uint8_t *)"\1\2\377", (const uint8_t *)"\1\1\0");
    three("backward: a coded page that none needs", written, written_marks, 1, all, yes);
    three("backward: a final page, one original by two others, one by three", written, written_marks, 2, all, yes);
    three("backward: the final page above", written, written_marks, 3, all, yes);

    three("at rest, the spare", rest, rest_marks, 0, all, yes);
    three("at rest, a page", rest, rest_marks, 2, (const uint8_t *)"\1\377\4", (const uint8_t *)"\1\0\1");
    three("at the end, the spare", end, end_marks, 0, all, yes);
    three("at the end, a page, which is another original", end, end_marks, 1, (const uint8_t *)"\1\2\377", (const uint8_t *)"\1\1\0");
}

/* ---- case P3: two blocks of two pages, in two sets */
static void two(const char *what, const uint8_t *store, const uint8_t *marks, uint32_t slot, const char *area, const char *flags)
{
    static const uint32_t entries[] = {0, 2, 1, 3};
    static const uint8_t sets[] = {1, 0, 0, 1};
    const struct call call = sized(2, 2, 0, slot);
    struct memory memory;
    lend(&memory, 2, 2, entries, sets, store, marks);
    memory.pins[0] = memory.pins[3] = 200;
    memory.store[slot] = 99;
    leaves(what, &memory, &call, (const uint8_t *)area, (const uint8_t *)flags);
}

static void two_checked(void)
{
    static const uint8_t torn[] = {6, 1, 4, 77, 4, 8}, torn_marks[] = {1, 1, 1, 255, 0, 0};
    static const uint8_t full[] = {6, 1, 1, 2, 4, 8}, full_marks[] = {1, 1, 0, 0, 0, 0};

    two("torn: a coded page of the first set", torn, torn_marks, 0, "\1\377\4\10", "\1\0\1\1");
    two("torn: a coded page of the second", torn, torn_marks, 1, "\377\2\4\10", "\0\1\1\1");
    two("torn: a whole page of the torn block", torn, torn_marks, 2, "\1\2\4\10", "\1\1\1\1");
    two("torn: the torn page", torn, torn_marks, 3, "\1\2\4\10", "\1\1\1\1");
    two("torn: a plain page, in two sums", torn, torn_marks, 4, "\1\377\377\10", "\1\0\0\1");
    two("torn: a plain page, in one", torn, torn_marks, 5, "\1\2\4\377", "\1\1\1\0");
    two("full: a coded page that no read takes", full, full_marks, 0, "\1\2\4\10", "\1\1\1\1");
    two("full: an original by its coded page alone", full, full_marks, 2, "\1\2\4\10", "\1\1\1\1");
    two("full: an original by two pages", full, full_marks, 3, "\1\2\4\10", "\1\1\1\1");
    two("full: another by two", full, full_marks, 4, "\1\2\4\10", "\1\1\1\1");
    two("full: a cycle of which nothing is coded yet", full, full_marks, 5, "\1\2\4\377", "\1\1\1\0");
}

/* ---- refusals: each alone, and each before those that are looked for after it */
struct flaw {
    uint32_t number;
    void (*put)(struct memory *memory, struct call *call, uint32_t value);
    uint32_t value;
};

static void put_n(struct memory *memory, struct call *call, uint32_t value)
{
    (void)memory;
    call->n = value;
}

static void put_m(struct memory *memory, struct call *call, uint32_t value)
{
    (void)memory;
    call->m = value;
}

static void put_page_bytes(struct memory *memory, struct call *call, uint32_t value)
{
    (void)memory;
    call->page_bytes = value;
}

static void put_s(struct memory *memory, struct call *call, uint32_t value)
{
    (void)memory;
    call->s = value;
}

/* Part value / 4 has one byte or two too few or too many. */
static void put_length(struct memory *memory, struct call *call, uint32_t value)
{
    uint64_t *const lengths[] = {&call->list_len, &call->pins_len, &call->sets_len, &call->store_len, &call->marks_len, &call->area_len,
                                 &call->flags_len};
    static const int by[] = {-2, -1, 1, 2};
    (void)memory;
    *lengths[value / 4] += (uint64_t)(int64_t)by[value % 4];
}

static void put_entry(struct memory *memory, struct call *call, uint32_t value)
{
    (void)call;
    mover_send(memory->list, 1, value);
}

static void put_pin(struct memory *memory, struct call *call, uint32_t value)
{
    (void)call;
    memory->pins[2] = (uint8_t)value;
}

static void put_set(struct memory *memory, struct call *call, uint32_t value)
{
    (void)call;
    memory->sets[1] = (uint8_t)value;
}

/* Block 1 is full of s, or torn as block 0 is. */
static void put_marks(struct memory *memory, struct call *call, uint32_t value)
{
    (void)call;
    memory->marks[0] = (uint8_t)(value == 0 ? 1 : value);
    memory->marks[1] = (uint8_t)value;
    memory->marks[2] = (uint8_t)(value == 0 ? 1 : value);
}

static void put_slot(struct memory *memory, struct call *call, uint32_t value)
{
    (void)memory;
    call->slot = value;
}

static const struct flaw flaws[] = {
    {1, put_n, 0}, {1, put_n, 65}, {1, put_n, UINT32_MAX}, {1, put_m, 0}, {1, put_m, 65}, {1, put_page_bytes, 0}, {1, put_page_bytes, 4097},
    {1, put_s, 3}, {2, put_length, 0}, {2, put_length, 1}, {2, put_length, 2}, {2, put_length, 3}, {2, put_length, 5}, {2, put_length, 6},
    {2, put_length, 9}, {2, put_length, 10}, {2, put_length, 13}, {2, put_length, 14}, {2, put_length, 17}, {2, put_length, 18},
    {2, put_length, 21}, {2, put_length, 22}, {2, put_length, 25}, {2, put_length, 26}, {3, put_entry, 1}, {3, put_entry, 3}, {3, put_entry, 258},
    {3, put_entry, 65534}, {3, put_entry, X}, {11, put_pin, 1}, {11, put_pin, 255}, {4, put_set, 1}, {4, put_set, 255}, {6, put_marks, 0},
    {6, put_marks, 3}, {6, put_marks, 255}, {7, put_slot, 4}, {7, put_slot, 65536}, {7, put_slot, UINT32_MAX},
};

enum { FLAWS = sizeof flaws / sizeof flaws[0] };

/* These flaws at once give the number of the first, and every lent byte stays. */
static void refused(const struct flaw *one, const struct flaw *other)
{
    static const uint8_t store[] = {5, 3, 2, 4}, marks[] = {1, 1, 0, 0};
    struct memory memory, before;
    struct call call = sized(3, 1, 0, 0);
    lend(&memory, 3, 1, round_list, one_set, store, marks);
    one->put(&memory, &call, one->value);
    if (other != NULL)
        other->put(&memory, &call, other->value);
    before = memory;
    check("a refused rebuild", rebuild(&memory, &call) == one->number && memcmp(&memory, &before, sizeof memory) == 0);
}

static void refused_checked(void)
{
    static const uint8_t rest[] = {5, 3, 2, 4}, rest_marks[] = {1, 1, 0, 0};
    struct memory memory;
    struct call call;
    uint32_t i, j;
    for (i = 0; i < FLAWS; i++) {
        refused(&flaws[i], NULL);
        for (j = i + 1; j < FLAWS; j++)
            if (flaws[j].number != flaws[i].number)
                refused(&flaws[i], &flaws[j]);
    }
    lend(&memory, 3, 1, round_list, one_set, rest, rest_marks);
    call = sized(3, 1, 0, 0);
    check("nothing lent", mover_rebuild(3, 1, 1, 0, NULL, 0, NULL, 0, NULL, 0, NULL, 0, NULL, 0, NULL, 0, NULL, 0, 0) == MOVER_BAD_LENGTH);
    for (i = 0; i < 3; i++)
        mover_drop(memory.list, i);
    check("all dropped", rebuild(&memory, &call) == MOVER_BAD_LIST && memory.area[AT] == GUARD && memory.flags[AT] == GUARD);
    memory.pins[0] = 1;
    check("a pinned page is dropped", rebuild(&memory, &call) == MOVER_BAD_LIST && memory.area[AT] == GUARD);
}

/* ---- every place of a move, whole and torn, and every slot, with pages of several bytes */
enum { N = 4, M = 3, P = 5, PAGES = N * M, SLOTS = (N + 1) * M };

static uint8_t list[2 * PAGES], pins[PAGES], sets[PAGES], store[SLOTS * P], marks[SLOTS], work[P], wear[MOVER_WEAR_BYTES];
static uint8_t area[PAGES * P], flags[PAGES], originals[PAGES * P];
static const struct mover_move move = {N, M, P, 0, list, pins, sets, store, marks, work, wear};

static uint32_t reads_refused;

/* Whether a read of the original sums the slot: other bytes there give another page. */
static int sums_slot(uint32_t original, uint32_t slot)
{
    uint8_t page[P];
    uint32_t count, bytes, i;
    reads_refused += mover_read_move(&move, original, &count, &bytes) != MOVER_DONE;
    memcpy(page, work, P);
    for (i = 0; i < P; i++)
        store[slot * P + i] ^= 255;
    reads_refused += mover_read_move(&move, original, &count, &bytes) != MOVER_DONE;
    for (i = 0; i < P; i++)
        store[slot * P + i] ^= 255;
    return memcmp(page, work, P) != 0;
}

/* Pages that are said to be rebuilt are the originals, the others 255s. With a block torn, those are lost that a read cannot do without the slot; else
 * only some of these can be. Returns how many are lost. */
static uint32_t without(uint32_t slot, int torn)
{
    uint8_t kept[P], lost_page[P];
    uint32_t k, lost = 0;
    int good;
    memcpy(kept, store + slot * P, P);
    memset(lost_page, 255, P);
    memset(area, 77, sizeof area);
    memset(flags, 77, sizeof flags);
    memset(store + slot * P, 0x3C, P);
    good = mover_rebuild_move(&move, area, flags, slot) == MOVER_DONE;
    memcpy(store + slot * P, kept, P);
    for (k = 0; k < PAGES; k++) {
        int needs = sums_slot(k, slot);
        good = good && flags[k] <= 1 && memcmp(area + k * P, flags[k] == 1 ? originals + k * P : lost_page, P) == 0
               && (flags[k] == 1 || needs) && (!torn || flags[k] == !needs);
        lost += flags[k] == 0;
    }
    check("what is rebuilt", good);
    return lost;
}

static void every_slot(uint32_t factor)
{
    struct mover_state at = {0};
    struct mover_step step;
    uint32_t place, slot, k, whole_lost = 0, torn_lost = 0;
    for (k = 0; k < PAGES; k++)
        mover_send(list, k, (factor * k + 2) % PAGES);
    memset(store, 255, M * P);
    for (k = 0; k < PAGES * P; k++)
        store[M * P + k] = originals[k] = (uint8_t)(k * 37 + k / 7);
    memset(marks, 255, M);
    memset(marks + M, 0, PAGES);
    check("the list is split", mover_split_move(&move) == MOVER_DONE);
    for (place = 0; place <= mover_last_place(N, M); place++) {
        int torn = place % (M + 1) != M;
        for (slot = 0; slot < SLOTS; slot++)
            *(torn ? &torn_lost : &whole_lost) += without(slot, torn);
        check("the step", mover_step_of(&move, place, &step) == MOVER_DONE);
        if (step.kind == MOVER_WRITE) {
            slot = step.block * M + step.page;
            marks[slot] = 254;
            memset(store + slot * P, 9, P);
            for (k = 0; k < SLOTS; k++)
                torn_lost += without(k, 1);
            marks[slot] = 255;
            memset(store + slot * P, 255, P);
        }
        check("goes on", mover_run_move(&move, place, 1, UINT32_MAX, &at) == MOVER_DONE);
    }
    check("finished", at.finished && reads_refused == 0);
    check("some are lost between blocks, and more inside them", whole_lost > 0 && torn_lost > whole_lost);
}

void rebuild_checked(void)
{
    three_checked();
    two_checked();
    refused_checked();
    every_slot(1);
    every_slot(5);
    every_slot(7);
    check("lengths", mover_area_bytes(64, 64, 4096) == 16777216 && mover_area_bytes(2, 3, 5) == 30 && mover_flags_bytes(64, 64) == 4096);
}
