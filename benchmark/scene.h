/* A move to measure: sizes, list, split and a store, with room for what a call returns. */
#ifndef SCENE_H
#define SCENE_H

#include <stdint.h>

struct scene {
    uint32_t n, m, page_bytes, s;
    uint64_t list_len, pins_len, sets_len, store_len, marks_len, work_len, wear_len;
    uint8_t *list, *pins, *sets, *store, *marks, *work, *wear;
    uint32_t wear_limit;
    uint64_t text_len;                     /* a HEX text, which is not the scene's own: neither copied nor freed with it */
    uint8_t *text;
    uint64_t area_len, flags_len;          /* where originals are rebuilt, nor is this */
    uint8_t *area, *flags;
};

/* The library, or the mover by hand. */
struct mover {
    const char *name;
    uint32_t (*split)(uint32_t, uint32_t, uint32_t, uint32_t, const uint8_t *, uint64_t, const uint8_t *, uint64_t, uint8_t *, uint64_t);
    uint32_t (*run)(uint32_t, uint32_t, uint32_t, uint32_t, const uint8_t *, uint64_t, const uint8_t *, uint64_t, const uint8_t *,
                    uint64_t, uint8_t *, uint64_t, uint8_t *, uint64_t, uint8_t *, uint64_t, uint8_t *, uint64_t, uint32_t, uint32_t, uint32_t,
                    uint32_t *, uint32_t *, uint32_t *, uint32_t *, uint32_t *, uint32_t *, uint32_t *);
    uint32_t (*mend)(uint32_t, uint32_t, uint32_t, uint32_t, uint8_t *, uint64_t, uint8_t *, uint64_t, uint8_t *, uint64_t, uint32_t *,
                     uint32_t *);
    uint32_t (*refresh)(uint8_t *, uint64_t);
    uint32_t (*read)(uint32_t, uint32_t, uint32_t, uint32_t, const uint8_t *, uint64_t, const uint8_t *, uint64_t, const uint8_t *,
                     uint64_t, const uint8_t *, uint64_t, const uint8_t *, uint64_t, uint8_t *, uint64_t, uint32_t, uint32_t *,
                     uint32_t *);
    uint32_t (*rebuild)(uint32_t, uint32_t, uint32_t, uint32_t, const uint8_t *, uint64_t, const uint8_t *, uint64_t, const uint8_t *,
                        uint64_t, const uint8_t *, uint64_t, const uint8_t *, uint64_t, uint8_t *, uint64_t, uint8_t *, uint64_t, uint32_t);
    uint32_t (*hex_read)(uint32_t, uint32_t, uint32_t, const uint8_t *, uint64_t, uint8_t *, uint64_t, uint8_t *, uint64_t);
    uint32_t (*hex_write)(uint32_t, uint32_t, uint32_t, const uint8_t *, uint64_t, const uint8_t *, uint64_t, uint8_t *, uint64_t);
};

/* All that a call returns: the refusal number, then the numbers out. */
struct answer {
    uint32_t number, out[7];
};

struct answer call_split(const struct mover *mover, struct scene *scene);
struct answer call_run(const struct mover *mover, struct scene *scene, uint32_t place, uint32_t budget);
struct answer call_mend(const struct mover *mover, struct scene *scene);
struct answer call_refresh(const struct mover *mover, struct scene *scene);
struct answer call_read(const struct mover *mover, struct scene *scene, uint32_t original);
struct answer call_rebuild(const struct mover *mover, struct scene *scene, uint32_t slot);
struct answer call_hex_read(const struct mover *mover, struct scene *scene);
struct answer call_hex_write(const struct mover *mover, struct scene *scene);

/* Lists: random; random with every tenth page dropped; every page to the next block or to the one before, which makes one cycle of all blocks in each set; page p of
 * block i to block p, for n = m. */
enum order { RANDOM, DROPPING, CYCLE_UP, CYCLE_DOWN, TRANSPOSED };

/* Memory; ends the program if there is none. */
uint8_t *take(uint64_t bytes);

/* A scene at rest with random pages, none of them pinned, no erase counted, no limit, no text, and no areas. */
void scene_make(struct scene *scene, uint32_t n, uint32_t m, uint32_t page_bytes, enum order order, uint64_t *random);
void scene_copy(struct scene *to, const struct scene *from);

/* Takes areas for what is rebuilt, and frees them. */
void scene_areas(struct scene *scene);
void scene_free_areas(struct scene *scene);
void scene_free(struct scene *scene);

/* Whether two scenes hold the same bytes. */
int scene_same(const struct scene *a, const struct scene *b);

#endif
