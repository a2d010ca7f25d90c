/* The lines of the HEX calls: the biggest image written and read, beside plain C and beside a memcpy of the text. */
#include "../examples/demo/random.h"
#include "bench.h"
#include "mover.h"

#include <stdio.h>
#include <stdlib.h>
#include <string.h>

/* How long the writer's records are with their line feeds: 16 bytes of data, an upper half, the end. */
enum { DATA = 44, UPPER = 16, END = 12, SPAN = 65536 };

void hex_falling(const struct scene *scene, uint8_t *to)
{
    struct scene z = *scene;
    uint64_t image = (uint64_t)z.n * z.m * z.page_bytes;
    const uint8_t *from;
    z.text_len = mover_hex_bytes(z.n, z.m, z.page_bytes);
    z.text = take(z.text_len);
    if (call_hex_write(&movers[PLAIN], &z).number != MOVER_DONE)
        stop("a text");
    from = z.text;
    for (uint64_t done = 0; done < image; done += SPAN) {
        uint64_t upper = done == 0 ? 0 : UPPER, records = (image - done < SPAN ? image - done : SPAN) / 16;
        memcpy(to, from, upper);
        from += upper;
        to += upper;
        for (uint64_t i = 0; i < records; i++)
            memcpy(to + i * DATA, from + (records - 1 - i) * DATA, DATA);
        from += records * DATA;
        to += records * DATA;
    }
    memcpy(to, from, END);
    free(z.text);
}

typedef struct answer (*hex_call)(const struct mover *mover, struct scene *scene);

/* What a call has to start from is nonsense, so that it has to write all. */
static void soil(struct scene *z, int writes)
{
    if (writes) {
        memset(z->text, 0x5A, z->text_len);
    } else {
        memset(z->store, 0x5A, z->store_len);
        memset(z->marks, 0x5A, z->marks_len);
    }
}

static void one_line(const char *name, hex_call call, struct scene scenes[BOTH], int writes, uint32_t times)
{
    uint8_t *copy = take(scenes[PLAIN].text_len);
    double best[BOTH] = {1e18, 1e18}, copied = 1e18, began;
    memset(copy, 0, scenes[PLAIN].text_len);
    for (uint32_t round = 0; round < times; round++) {
        for (int j = 0; j < BOTH; j++) {
            int i = (int)(round + (uint32_t)j) % BOTH;
            soil(&scenes[i], writes);
            began = now();
            if (call(&movers[i], &scenes[i]).number != MOVER_DONE)
                stop(name);
            best[i] = least(best[i], now() - began);
        }
        if (!scene_same(&scenes[LIBRARY], &scenes[PLAIN])
            || memcmp(scenes[LIBRARY].text, scenes[PLAIN].text, scenes[PLAIN].text_len) != 0)
            stop(name);
    }
    for (uint32_t round = 0; round < times; round++) {
        began = now();
        memcpy(copy, scenes[PLAIN].text, scenes[PLAIN].text_len);
        __asm__ volatile("" : : "r"(copy) : "memory");
        copied = least(copied, now() - began);
    }
    print_ratio(name, best[LIBRARY] / best[PLAIN], AIM);
    printf("    %-66s %6.2f\n", "library / memcpy of the text", best[LIBRARY] / copied);
    printf("    %-66s %6.2f\n", "plain C / the same", best[PLAIN] / copied);
    printf("    %-66s %6.0f ms\n", "library", best[LIBRARY] / 1e6);
    free(copy);
}

/* A text whose spans fall takes a walk for each span, and so fewer rounds. */
void hex_lines(void)
{
    struct scene scenes[BOTH];
    uint64_t random = seed;
    scene_make(&scenes[LIBRARY], 64, 64, 4096, RANDOM, &random);
    scene_copy(&scenes[PLAIN], &scenes[LIBRARY]);
    for (int i = 0; i < BOTH; i++) {
        scenes[i].text_len = mover_hex_bytes(64, 64, 4096);
        scenes[i].text = take(scenes[i].text_len);
    }
    one_line("HEX text written, n = m = 64, P = 4096", call_hex_write, scenes, 1, rounds);
    one_line("HEX text read, records rising", call_hex_read, scenes, 0, rounds);
    hex_falling(&scenes[PLAIN], scenes[PLAIN].text);
    memcpy(scenes[LIBRARY].text, scenes[PLAIN].text, scenes[PLAIN].text_len);
    one_line("HEX text read, records of each 64 KiB falling", call_hex_read, scenes, 0, 1 + rounds / 5);
    for (int i = 0; i < BOTH; i++) {
        free(scenes[i].text);
        scene_free(&scenes[i]);
    }
}
