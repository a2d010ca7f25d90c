/* The lines of the rebuild call: all originals of the biggest store, in mid-move, without a page that some of them are sums of. */
#include "bench.h"
#include "mover.h"

#include <stdio.h>
#include <string.h>

enum { SIZE = 64, BYTES = 4096, SLOT = 5 * SIZE + 9 };

/* Whether a read sums the slot: another byte there gives another page. */
static int is_summed(struct scene *scene)
{
    uint8_t page[BYTES], *const bad = scene->store + (uint64_t)SLOT * BYTES;
    int found = 0;
    for (uint32_t k = 0; k < SIZE * SIZE && !found; k++) {
        call_read(&movers[PLAIN], scene, k);
        memcpy(page, scene->work, BYTES);
        bad[0] ^= 1;
        call_read(&movers[PLAIN], scene, k);
        bad[0] ^= 1;
        found = memcmp(page, scene->work, BYTES) != 0;
    }
    return found;
}

static void one_line(const char *name, enum order order, uint32_t place)
{
    struct scene scenes[BOTH];
    uint64_t random = seed;
    double best[BOTH] = {1e18, 1e18};
    scene_make(&scenes[LIBRARY], SIZE, SIZE, BYTES, order, &random);
    if (call_split(&movers[LIBRARY], &scenes[LIBRARY]).number != MOVER_DONE
        || call_run(&movers[LIBRARY], &scenes[LIBRARY], 0, place).number != MOVER_DONE)
        stop(name);
    scene_copy(&scenes[PLAIN], &scenes[LIBRARY]);
    for (int i = 0; i < BOTH; i++)
        scene_areas(&scenes[i]);
    for (uint32_t round = 0; round < rounds; round++) {
        for (int j = 0; j < BOTH; j++) {
            int i = (int)(round + (uint32_t)j) % BOTH;
            double began = now();
            if (call_rebuild(&movers[i], &scenes[i], SLOT).number != MOVER_DONE)
                stop(name);
            best[i] = least(best[i], now() - began);
        }
        if (!scene_same(&scenes[LIBRARY], &scenes[PLAIN]))
            stop(name);
    }
    if (!is_summed(&scenes[PLAIN]))
        stop("a slot that no sum has");
    print_ratio(name, best[LIBRARY] / best[PLAIN], AIM);
    printf("    %-66s %6.1f ms\n", "library", best[LIBRARY] / 1e6);
    for (int i = 0; i < BOTH; i++) {
        scene_free_areas(&scenes[i]);
        scene_free(&scenes[i]);
    }
}

/* Between blocks, where there may be another sum, and inside one. */
void rebuild_lines(void)
{
    one_line("rebuild, n = m = 64, P = 4096, random list, no block torn", RANDOM, 65 * 31 + 64);
    one_line("rebuild, a block torn", RANDOM, 65 * 31 + 20);
    one_line("rebuild, one cycle of all blocks in each set, no block torn", CYCLE_UP, 65 * 31 + 64);
    one_line("rebuild, random list, in the second pass, no block torn", RANDOM, 65 * 96 + 64);
}
