/* The lines of the check of listings: the method's own listing of 64 pages, as the step program writes it by originals. */
#include "../examples/demo/random.h"
#include "bench.h"
#include "mover.h"
#include "plain.h"

#include <stdio.h>
#include <stdlib.h>
#include <string.h>

enum { MOST_ORIGINALS = 64, MOST_TEXT = 1 << 14, REPEATS = 20 };

typedef uint32_t (*check_call)(uint32_t, uint32_t, const uint8_t *, uint64_t, const uint8_t *, uint64_t, uint32_t *, uint32_t *);

static const check_call checks[BOTH] = {mover_check_listing, plain_check_listing};

struct listing {
    uint32_t n, m;
    const uint8_t *list, *sets;
    char text[MOST_TEXT];
    int length;
};

static uint32_t goes_to(const struct listing *l, uint32_t k)
{
    return l->list[2 * k] | (uint32_t)l->list[2 * k + 1] << 8;
}

/* The original of a set that comes from a block, and the one that goes there, both counted from 0. */
static uint32_t from_block(const struct listing *l, uint32_t set, uint32_t block)
{
    uint32_t k = block * l->m;
    while (l->sets[k] != set)
        k++;
    return k;
}

static uint32_t to_block(const struct listing *l, uint32_t set, uint32_t block)
{
    uint32_t k = 0;
    while (l->sets[k] != set || goes_to(l, k) / l->m != block)
        k++;
    return k;
}

static int is_top(const struct listing *l, uint32_t set, uint32_t block)
{
    uint32_t at = block;
    do {
        at = goes_to(l, from_block(l, set, at)) / l->m;
        if (at > block)
            return 0;
    } while (at != block);
    return 1;
}

static void add_line(struct listing *l, const char *form, uint32_t a, uint32_t b, uint32_t c, uint32_t d, uint32_t e)
{
    l->length += snprintf(l->text + l->length, sizeof l->text - (size_t)l->length, form, a, b, c, d, e);
}

static void write_text(struct listing *l)
{
    uint32_t step = 0, n = l->n, m = l->m;
    l->length = 0;
    for (uint32_t block = 0; block < n; block++) {
        for (uint32_t set = 0; set < m; set++, step++) {
            uint32_t own = from_block(l, set, block), other = to_block(l, set, block);
            if (is_top(l, set, block))
                add_line(l, "%u W %u %u %u\n", step, block, set, own, 0);
            else
                add_line(l, "%u W %u %u %u %u\n", step, block, set, own < other ? own : other, own < other ? other : own);
        }
        add_line(l, "%u E %u\n", step++, block + 1, 0, 0, 0);
    }
    for (uint32_t block = n; block > 0; block--) {
        for (uint32_t page = 0; page < m; page++, step++) {
            uint32_t k = 0;
            while (goes_to(l, k) != (block - 1) * m + page)
                k++;
            add_line(l, "%u W %u %u %u\n", step, block, page, k, 0);
        }
        add_line(l, "%u E %u\n", step++, block - 1, 0, 0, 0);
    }
    add_line(l, "end %u %u\n", 2 * n * m, 2 * n, 0, 0, 0);
}

static void both_say(const struct listing *l, int say_yes)
{
    uint32_t line[BOTH], accepted[BOTH], number[BOTH];
    for (int i = 0; i < BOTH; i++)
        number[i] = checks[i](l->n, l->m, l->list, 2 * (uint64_t)l->n * l->m, (const uint8_t *)l->text, (uint64_t)l->length, &line[i], &accepted[i]);
    if (number[LIBRARY] != number[PLAIN] || line[LIBRARY] != line[PLAIN] || accepted[LIBRARY] != accepted[PLAIN])
        stop("a listing");
    if (say_yes && !accepted[LIBRARY])
        stop("the method's listing");
}

/* A byte changed, left out or put in, many times. */
static void agree(const struct listing *l, uint64_t *random)
{
    static const char bytes[] = "0123456789 \nWEend\r";
    for (int i = 0; i < 2000; i++) {
        struct listing other = *l;
        size_t at = (size_t)(random_next(random) % (uint64_t)l->length);
        switch (random_next(random) % 3) {
        case 0: other.text[at] = bytes[random_next(random) % (sizeof bytes - 1)]; break;
        case 1: memmove(other.text + at, other.text + at + 1, (size_t)--other.length - at); break;
        default:
            memmove(other.text + at + 1, other.text + at, (size_t)other.length++ - at);
            other.text[at] = bytes[random_next(random) % (sizeof bytes - 1)];
        }
        both_say(&other, 0);
    }
}

static void time_listing(const char *name, uint32_t n, uint32_t m)
{
    static struct listing l;
    struct scene scene;
    uint64_t random = seed;
    double best[BOTH] = {1e18, 1e18};
    scene_make(&scene, n, m, 1, RANDOM, &random);
    if (call_split(&movers[LIBRARY], &scene).number != MOVER_DONE)
        stop(name);
    l.n = n, l.m = m, l.list = scene.list, l.sets = scene.sets;
    write_text(&l);
    both_say(&l, 1);
    agree(&l, &random);
    for (uint32_t round = 0; round < rounds; round++)
        for (int j = 0; j < BOTH; j++) {
            int i = (int)(round + (uint32_t)j) % BOTH;
            double began = now();
            for (int k = 0; k < REPEATS; k++) {
                uint32_t line, accepted;
                checks[i](n, m, l.list, 2 * (uint64_t)n * m, (const uint8_t *)l.text, (uint64_t)l.length, &line, &accepted);
            }
            best[i] = least(best[i], now() - began);
        }
    print_ratio(name, best[LIBRARY] / best[PLAIN], AIM);
    printf("    %-66s %6.0f us\n", "library", best[LIBRARY] / REPEATS / 1e3);
    scene_free(&scene);
}

void listing_lines(void)
{
    time_listing("listing checked, n = 64, m = 1, the method's own", 64, 1);
    time_listing("listing checked, n = m = 8, the method's own", 8, 8);
}

void listing_stack(void *data)
{
    static const char text[] = "0 W 0 0 0 1\n1 E 1\n2 W 1 0 1\n3 E 2\n4 W 2 0 0\n5 E 1\n6 W 1 0 1\n7 E 0\nend 4 4\n";
    static const uint8_t list[4] = {1, 0, 0, 0};
    uint32_t line, accepted;
    checks[*(const int *)data](2, 1, list, sizeof list, (const uint8_t *)text, sizeof text - 1, &line, &accepted);
}
