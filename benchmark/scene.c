#include "scene.h"
#include "../examples/demo/random.h"
#include "mover.h"

#include <stdio.h>
#include <stdlib.h>
#include <string.h>

struct answer call_split(const struct mover *mover, struct scene *z)
{
    struct answer answer = {0, {0}};
    answer.number = mover->split(z->n, z->m, z->page_bytes, z->s, z->list, z->list_len, z->pins, z->pins_len, z->sets,
                                z->sets_len);
    return answer;
}

struct answer call_run(const struct mover *mover, struct scene *z, uint32_t place, uint32_t budget)
{
    struct answer a;
    a.number = mover->run(z->n, z->m, z->page_bytes, z->s, z->list, z->list_len, z->pins, z->pins_len, z->sets, z->sets_len,
                          z->store, z->store_len, z->marks, z->marks_len, z->work, z->work_len, z->wear, z->wear_len, place, budget,
                          z->wear_limit, &a.out[0], &a.out[1], &a.out[2], &a.out[3], &a.out[4], &a.out[5], &a.out[6]);
    return a;
}

struct answer call_mend(const struct mover *mover, struct scene *z)
{
    struct answer a = {0, {0}};
    a.number = mover->mend(z->n, z->m, z->page_bytes, z->s, z->store, z->store_len, z->marks, z->marks_len, z->wear, z->wear_len,
                          &a.out[0], &a.out[1]);
    return a;
}

struct answer call_refresh(const struct mover *mover, struct scene *z)
{
    struct answer a = {0, {0}};
    a.number = mover->refresh(z->wear, z->wear_len);
    return a;
}

struct answer call_read(const struct mover *mover, struct scene *z, uint32_t original)
{
    struct answer a = {0, {0}};
    a.number = mover->read(z->n, z->m, z->page_bytes, z->s, z->list, z->list_len, z->pins, z->pins_len, z->sets, z->sets_len,
                           z->store, z->store_len, z->marks, z->marks_len, z->work, z->work_len, original, &a.out[0], &a.out[1]);
    return a;
}

struct answer call_rebuild(const struct mover *mover, struct scene *z, uint32_t slot)
{
    struct answer a = {0, {0}};
    a.number = mover->rebuild(z->n, z->m, z->page_bytes, z->s, z->list, z->list_len, z->pins, z->pins_len, z->sets, z->sets_len,
                              z->store, z->store_len, z->marks, z->marks_len, z->area, z->area_len, z->flags, z->flags_len, slot);
    return a;
}

struct answer call_hex_read(const struct mover *mover, struct scene *z)
{
    struct answer a = {0, {0}};
    a.number = mover->hex_read(z->n, z->m, z->page_bytes, z->text, z->text_len, z->store, z->store_len, z->marks, z->marks_len);
    return a;
}

struct answer call_hex_write(const struct mover *mover, struct scene *z)
{
    struct answer a = {0, {0}};
    a.number = mover->hex_write(z->n, z->m, z->page_bytes, z->store, z->store_len, z->marks, z->marks_len, z->text, z->text_len);
    return a;
}

uint8_t *take(uint64_t bytes)
{
    uint8_t *part = malloc(bytes);
    if (part == NULL) {
        fprintf(stderr, "bench: no memory\n");
        exit(2);
    }
    return part;
}

static void make_parts(struct scene *z)
{
    z->list_len = mover_list_bytes(z->n, z->m);
    z->pins_len = mover_pins_bytes(z->n, z->m);
    z->sets_len = mover_sets_bytes(z->n, z->m);
    z->store_len = mover_store_bytes(z->n, z->m, z->page_bytes);
    z->marks_len = mover_marks_bytes(z->n, z->m);
    z->work_len = z->page_bytes;
    z->wear_len = MOVER_WEAR_BYTES;
    z->list = take(z->list_len);
    z->pins = take(z->pins_len);
    z->sets = take(z->sets_len);
    z->store = take(z->store_len);
    z->marks = take(z->marks_len);
    z->work = take(z->work_len);
    z->wear = take(z->wear_len);
}

static uint32_t number_of(const struct scene *z, enum order order, uint32_t k)
{
    uint32_t count = z->n * z->m;
    switch (order) {
    case CYCLE_UP: return (k + z->m) % count;
    case CYCLE_DOWN: return (k + count - z->m) % count;
    case TRANSPOSED: return k % z->m * z->m + k / z->m;
    default: return k;
    }
}

static void make_list(struct scene *z, enum order order, uint64_t *random)
{
    uint32_t numbers[64 * 64], count = z->n * z->m;
    for (uint32_t k = 0; k < count; k++) {
        uint32_t other = order == RANDOM || order == DROPPING ? random_below(random, k + 1) : k;
        numbers[k] = numbers[other];
        numbers[other] = number_of(z, order, k);
    }
    for (uint32_t k = 0; k < count; k++)
        mover_send(z->list, k, order == DROPPING && k % 10 == 0 ? MOVER_DROPPED : numbers[k]);
}

void scene_make(struct scene *z, uint32_t n, uint32_t m, uint32_t page_bytes, enum order order, uint64_t *random)
{
    z->n = n;
    z->m = m;
    z->page_bytes = page_bytes;
    z->s = 0;
    z->text_len = 0;
    z->text = NULL;
    z->area_len = z->flags_len = 0;
    z->area = z->flags = NULL;
    make_parts(z);
    make_list(z, order, random);
    memset(z->pins, 0, z->pins_len);
    memset(z->sets, 0, z->sets_len);
    memset(z->store, 255, z->store_len);
    memset(z->marks, 255, z->marks_len);
    memset(z->work, 0, page_bytes);
    memset(z->wear, 0, z->wear_len);
    z->wear_limit = UINT32_MAX;
    random_bytes(random, z->store + (uint64_t)m * page_bytes, (uint64_t)n * m * page_bytes);
    memset(z->marks + m, 0, (size_t)n * m);
}

void scene_copy(struct scene *to, const struct scene *from)
{
    *to = *from;
    make_parts(to);
    memcpy(to->list, from->list, from->list_len);
    memcpy(to->pins, from->pins, from->pins_len);
    memcpy(to->sets, from->sets, from->sets_len);
    memcpy(to->store, from->store, from->store_len);
    memcpy(to->marks, from->marks, from->marks_len);
    memcpy(to->work, from->work, from->work_len);
    memcpy(to->wear, from->wear, from->wear_len);
}

void scene_free(struct scene *z)
{
    free(z->list);
    free(z->pins);
    free(z->sets);
    free(z->store);
    free(z->marks);
    free(z->work);
    free(z->wear);
}

void scene_areas(struct scene *z)
{
    z->area_len = mover_area_bytes(z->n, z->m, z->page_bytes);
    z->flags_len = mover_flags_bytes(z->n, z->m);
    z->area = take(z->area_len);
    z->flags = take(z->flags_len);
    memset(z->area, 0x5A, z->area_len);
    memset(z->flags, 0x5A, z->flags_len);
}

void scene_free_areas(struct scene *z)
{
    free(z->area);
    free(z->flags);
}

int scene_same(const struct scene *a, const struct scene *b)
{
    return memcmp(a->sets, b->sets, a->sets_len) == 0 && memcmp(a->store, b->store, a->store_len) == 0
        && memcmp(a->marks, b->marks, a->marks_len) == 0 && memcmp(a->work, b->work, a->work_len) == 0
        && memcmp(a->wear, b->wear, a->wear_len) == 0
        && (a->area == NULL || (memcmp(a->area, b->area, a->area_len) == 0 && memcmp(a->flags, b->flags, a->flags_len) == 0));
}
