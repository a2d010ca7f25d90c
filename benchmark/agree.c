/* The two movers do the same work only if they give the same answers, refusals and odd bytes included. */
#include "agree.h"
#include "../examples/demo/random.h"
#include "mover.h"

#include <string.h>

/* A mark that a cut may leave: 255, or half-written. */
static uint8_t torn_mark(uint64_t *random)
{
    return random_below(random, 2) == 0 ? 255 : (uint8_t)(3 + random_below(random, 252));
}

/* One fault, or none: a size, a length, an entry, a pin, a set, a mark, a byte, a counter, the limit, an area; or all pinned, beside a fault that comes
 * before or after. */
static void spoil(struct scene *z, uint64_t *random)
{
    switch (random_below(random, 38)) {
    case 0: z->n = random_below(random, 3) * 40; break;
    case 1: z->m = random_below(random, 3) * 40; break;
    case 2: z->page_bytes = random_below(random, 2) * 5000; break;
    case 3: z->s = random_below(random, 4); break;
    case 4: z->list_len -= 1 + random_below(random, 2); break;
    case 5: z->sets_len -= 1; break;
    case 6: z->store_len -= 1; break;
    case 7: z->marks_len -= 1; break;
    case 8: z->list[random_below(random, (uint32_t)z->list_len)] = (uint8_t)random_below(random, 256); break;
    case 9: z->sets[random_below(random, (uint32_t)z->sets_len)] = (uint8_t)random_below(random, 256); break;
    case 10: z->sets[random_below(random, (uint32_t)z->sets_len)] = (uint8_t)random_below(random, z->m); break;
    case 11: z->marks[random_below(random, (uint32_t)z->marks_len)] = torn_mark(random); break;
    case 12: z->marks[random_below(random, (uint32_t)z->marks_len)] = (uint8_t)random_below(random, 5); break;
    case 13: z->store[random_below(random, (uint32_t)z->store_len)] = (uint8_t)random_below(random, 256); break;
    case 14: memset(z->marks + random_below(random, z->n + 1) * z->m, torn_mark(random), z->m); break;
    case 15: z->pins_len -= 1; break;
    case 16: z->pins[random_below(random, (uint32_t)z->pins_len)] = (uint8_t)random_below(random, 256); break;
    case 17: memset(z->pins, 1, z->pins_len); break;
    case 18: memset(z->pins, 1, z->pins_len); z->list[0] ^= 1; break;
    case 19: memset(z->pins, 1, z->pins_len); z->sets[0] = 255; break;
    case 20: memset(z->pins, 1, z->pins_len); memset(z->marks, 3, z->marks_len); break;
    case 21: mover_drop(z->list, random_below(random, z->n * z->m)); break;
    case 22: memset(z->list, 255, z->list_len); break;
    case 23: mover_send(z->list, random_below(random, z->n * z->m), 65534 - random_below(random, 2)); break;
    case 24: z->wear_len -= 1 + random_below(random, 4); break;
    case 25: mover_set_counter(z->wear, random_below(random, MOVER_COUNTERS), UINT32_MAX - random_below(random, 4)); break;
    case 26: z->wear_limit = random_below(random, 4); break;
    case 27: memset(z->wear, 255, z->wear_len); break;
    case 28: z->area_len -= 1; break;
    case 29: z->flags_len -= 1; break;
    default: break;
    }
}

static struct answer any_call(const struct mover *mover, struct scene *z, uint32_t call, uint32_t number, uint32_t budget)
{
    switch (call) {
    case 0: return call_split(mover, z);
    case 1: return call_run(mover, z, number, budget);
    case 2: return call_mend(mover, z);
    case 4: return call_refresh(mover, z);
    case 5: return call_rebuild(mover, z, number);
    default: return call_read(mover, z, number);
    }
}

/* Pages are short where there are many. */
static uint32_t any_length(uint32_t pages, uint64_t *random)
{
    return 1 + random_below(random, pages > 40 ? 40 : random_below(random, 16) == 0 ? 4096 : 150);
}

/* Half of the stores get 255s among their bytes, which random ones hardly have. */
static void mix_erased(struct scene *z, uint64_t *random)
{
    uint64_t spare = (uint64_t)z->m * z->page_bytes;
    if (random_below(random, 2) == 0)
        return;
    for (uint64_t i = spare; i < z->store_len; i++)
        if (random_below(random, 2) == 0)
            z->store[i] = 255;
}

/* Half of the lists keep every page from some number on, and all that stays is pinned, by any byte that is not 0. */
static void pin_some(struct scene *z, uint64_t *random)
{
    uint32_t count = z->n * z->m, first = random_below(random, count + 1);
    if (random_below(random, 2) == 0)
        for (uint32_t k = 0; k < count; k++)
            mover_send(z->list, k, k < first ? first - 1 - k : k);
    for (uint32_t k = 0; k < count; k++)
        if (z->list[2 * k] + 256u * z->list[2 * k + 1] == k)
            z->pins[k] = (uint8_t)(1 + random_below(random, 255));
}

/* Half of the lists drop one page in so many, from all to one in seven, and one dropped page in two is pinned. */
static void drop_some(struct scene *z, uint64_t *random)
{
    uint32_t count = z->n * z->m, in = 1 + random_below(random, 7);
    if (random_below(random, 2) == 0)
        return;
    for (uint32_t k = 0; k < count; k++)
        if (random_below(random, in) == 0) {
            mover_drop(z->list, k);
            z->pins[k] = (uint8_t)random_below(random, 2);
        }
}

/* Half of the records have any counters, half of these a pair that is wrong; half of the limits are just kept, or passed by one. */
static void wear_some(struct scene *z, uint64_t *random)
{
    uint32_t most = 0;
    if (random_below(random, 2) == 0)
        return;
    for (uint32_t block = 0; block < MOVER_COUNTERS; block++)
        mover_set_counter(z->wear, block, random_below(random, 1 << 8 * random_below(random, 4)));
    if (random_below(random, 2) == 0) {
        mover_set_counter(z->wear, MOVER_COUNTERS, random_below(random, 300));
        z->wear[MOVER_WEAR_BYTES - 1] = (uint8_t)random_below(random, 256);
    }
    for (uint32_t block = 0; block <= z->n; block++)
        if (mover_counter(z->wear, block) > most)
            most = mover_counter(z->wear, block);
    if (random_below(random, 2) == 0)
        z->wear_limit = most + random_below(random, 3);
}

/* Makes a move that stands somewhere, with a list that drops pages or surely does not. */
static void make_standing(struct scene *z, const struct mover *mover, uint32_t place, uint32_t n, uint32_t m, int dropping, uint64_t *random)
{
    scene_make(z, n, m, any_length(n * m, random), random_below(random, 8) == 0 ? CYCLE_UP : RANDOM, random);
    mix_erased(z, random);
    pin_some(z, random);
    if (dropping)
        drop_some(z, random);
    z->s = random_below(random, 3);
    memset(z->marks + m, (int)z->s, (size_t)n * m);
    call_split(mover, z);
    call_run(mover, z, 0, place);
    wear_some(z, random);
}

/* One request, with the same fault for both. Most are small. */
static int agree_once(const struct mover *a, const struct mover *b, uint64_t *random)
{
    struct scene scene, first, second;
    struct answer one, two;
    uint32_t big = random_below(random, 64) == 0;
    uint32_t n = 1 + random_below(random, big ? 64 : 6), m = big ? 64 - random_below(random, 3) : 1 + random_below(random, 5);
    uint32_t last = 2 * n * (m + 1);
    uint32_t place = random_below(random, last + 1), call = random_below(random, 6), budget = random_below(random, last + 3);
    uint32_t number = call == 3 ? random_below(random, n * m + 1) : call == 5 ? random_below(random, (n + 1) * m + 1) : random_below(random, 8) == 0 ? random_below(random, last + 3) : place;
    uint64_t same_fault;
    int same;
    make_standing(&scene, a, place, n, m, call != 5 || random_below(random, 8) == 0, random);
    scene_copy(&first, &scene);
    scene_copy(&second, &scene);
    scene_areas(&first);
    scene_areas(&second);
    same_fault = *random;
    spoil(&first, random);
    spoil(&second, &same_fault);
    one = any_call(a, &first, call, number, budget);
    two = any_call(b, &second, call, number, budget);
    same = memcmp(&one, &two, sizeof one) == 0 && scene_same(&first, &second);
    scene_free_areas(&first);
    scene_free_areas(&second);
    scene_free(&scene);
    scene_free(&first);
    scene_free(&second);
    return same;
}

uint32_t disagreements(const struct mover *a, const struct mover *b, uint32_t requests, uint64_t *random)
{
    uint32_t different = 0;
    for (uint32_t i = 0; i < requests; i++)
        different += !agree_once(a, b, random);
    return different;
}
