/* The library beside the best mover that we can write by hand in C: both in this process, in turn, the best of several rounds.
 * Ends with status 1 if the two ever leave different bytes. */
#define _POSIX_C_SOURCE 200809L

#include "../examples/demo/random.h"
#include "agree.h"
#include "bench.h"
#include "mover.h"
#include "plain.h"
#include "scene.h"
#include "stack.h"

#include <inttypes.h>
#include <stdio.h>
#include <stdlib.h>
#include <string.h>
#include <time.h>

const double AIM = 1.1;
static const double MEMCPY_AIM = 1.5, STACK_AIM_KIB = 20;

const struct mover movers[BOTH] = {
    {"library", mover_split, mover_run, mover_mend, mover_wear_refresh, mover_read, mover_rebuild, mover_hex_read, mover_hex_write},
    {"plain C", plain_split, plain_run, plain_mend, plain_wear_refresh, plain_read, plain_rebuild, plain_hex_read, plain_hex_write},
};

uint64_t seed = 1;
uint32_t rounds = 15;

double now(void)
{
    struct timespec t;
    clock_gettime(CLOCK_PROCESS_CPUTIME_ID, &t);
    return (double)t.tv_sec * 1e9 + (double)t.tv_nsec;
}

void stop(const char *what)
{
    fprintf(stderr, "bench: library and plain C differ: %s\n", what);
    exit(1);
}

/* What is measured: the scene before it, a job that is timed on a fresh copy, and what the job needs to know. */
struct task {
    const char *name;
    struct scene before;
    void (*job)(const struct mover *mover, struct scene *scene, const struct task *task);
    uint32_t repeat;
};

static void put_back(struct scene *to, const struct scene *from)
{
    memcpy(to->sets, from->sets, from->sets_len);
    memcpy(to->store, from->store, from->store_len);
    memcpy(to->marks, from->marks, from->marks_len);
    memcpy(to->work, from->work, from->work_len);
    memcpy(to->wear, from->wear, from->wear_len);
}

double least(double a, double b)
{
    return a < b ? a : b;
}

/* A memcpy of as many bytes as are summed: from one store to another, and page after page into one page. */
struct copies {
    struct scene to;
    double stores, pages;
};

static void time_copies(struct copies *copies, const struct scene *from, uint64_t bytes)
{
    double began = now();
    uint64_t done, part;
    for (done = 0; done < bytes; done += part) {
        part = bytes - done < from->store_len ? bytes - done : from->store_len;
        memcpy(copies->to.store, from->store, part);
        __asm__ volatile("" : : "r"(copies->to.store) : "memory");
    }
    copies->stores = least(copies->stores, now() - began);
    began = now();
    for (done = 0; done < bytes; done += from->page_bytes) {
        memcpy(copies->to.work, from->store + done % from->store_len, from->page_bytes);
        __asm__ volatile("" : : "r"(copies->to.work) : "memory");
    }
    copies->pages = least(copies->pages, now() - began);
}

/* Times the two in turn, and then the copies if there are any; best nanoseconds of each. Copies between the rounds would leave one of the two stores
 * in the caches, and the mover that has it would look faster by a tenth. */
static void measure(const struct task *task, double best[BOTH], struct copies *copies)
{
    struct scene scenes[BOTH];
    for (int i = 0; i < BOTH; i++) {
        scene_copy(&scenes[i], &task->before);
        best[i] = 1e18;
    }
    for (uint32_t round = 0; round < rounds; round++) {
        plain_bytes_summed = 0;
        for (int j = 0; j < BOTH; j++) {
            int i = (int)(round + (uint32_t)j) % BOTH;
            double began;
            put_back(&scenes[i], &task->before);
            began = now();
            task->job(&movers[i], &scenes[i], task);
            best[i] = least(best[i], now() - began);
        }
        if (!scene_same(&scenes[LIBRARY], &scenes[PLAIN]))
            stop(task->name);
    }
    for (uint32_t round = 0; copies != NULL && round < rounds; round++)
        time_copies(copies, &scenes[PLAIN], plain_bytes_summed);
    for (int i = 0; i < BOTH; i++)
        scene_free(&scenes[i]);
}

/* The jobs */

static void must_be_done(struct answer answer, const struct task *task)
{
    if (answer.number != MOVER_DONE)
        stop(task->name);
}

/* Another list each time, so that the processor learns none by heart: the same numbers, begun at another entry. */
static void split_job(const struct mover *mover, struct scene *scene, const struct task *task)
{
    static uint8_t twice[4 * 64 * 64];
    struct scene other = *scene;
    memcpy(twice, scene->list, scene->list_len);
    memcpy(twice + scene->list_len, scene->list, scene->list_len);
    for (uint32_t i = 0; i < task->repeat; i++) {
        other.list = twice + 2 * i;
        must_be_done(call_split(mover, &other), task);
    }
}

static void move_job(const struct mover *mover, struct scene *scene, const struct task *task)
{
    must_be_done(call_run(mover, scene, 0, UINT32_MAX), task);
}

static void steps_job(const struct mover *mover, struct scene *scene, const struct task *task)
{
    uint32_t last = mover_last_place(scene->n, scene->m);
    for (uint32_t place = 0; place < last; place++)
        must_be_done(call_run(mover, scene, place, 1), task);
}

/* An unfinished block is erased each time, so that it is unfinished again for the next. */
static void mend_job(const struct mover *mover, struct scene *scene, const struct task *task)
{
    for (uint32_t i = 0; i < task->repeat; i++)
        must_be_done(call_mend(mover, scene), task);
}

static void refresh_job(const struct mover *mover, struct scene *scene, const struct task *task)
{
    for (uint32_t i = 0; i < task->repeat; i++)
        must_be_done(call_refresh(mover, scene), task);
}

/* Some of the originals, at equal distances. */
static void read_job(const struct mover *mover, struct scene *scene, const struct task *task)
{
    for (uint32_t original = 0; original < scene->n * scene->m; original += task->repeat)
        must_be_done(call_read(mover, scene, original), task);
}

/* The lines */

void print_ratio(const char *name, double ratio, double aim)
{
    printf("  %-68s %6.2f%s\n", name, ratio, ratio > aim ? "  above the aim" : "");
    fflush(stdout);
}

/* A move that stands at a place. */
static void make_standing(struct scene *scene, uint32_t n, uint32_t m, uint32_t page_bytes, enum order order, uint32_t place)
{
    uint64_t random = seed;
    scene_make(scene, n, m, page_bytes, order, &random);
    call_split(&movers[LIBRARY], scene);
    call_run(&movers[LIBRARY], scene, 0, place);
}

static void line(const char *name, uint32_t blocks, uint32_t page_bytes, enum order order, uint32_t place, uint32_t repeat,
                 void (*job)(const struct mover *, struct scene *, const struct task *))
{
    struct task task = {name, {0}, job, repeat};
    double best[BOTH];
    make_standing(&task.before, blocks, blocks, page_bytes, order, place);
    measure(&task, best, NULL);
    print_ratio(name, best[LIBRARY] / best[PLAIN], AIM);
    scene_free(&task.before);
}

static void whole_move(const char *name, enum order order)
{
    struct task task = {name, {0}, move_job, 1};
    struct copies copies = {{0}, 1e18, 1e18};
    double best[BOTH];
    make_standing(&task.before, 64, 64, 4096, order, 0);
    scene_copy(&copies.to, &task.before);
    measure(&task, best, &copies);
    print_ratio(name, best[LIBRARY] / best[PLAIN], AIM);
    print_ratio("  library / memcpy of the bytes summed, store to store", best[LIBRARY] / copies.stores, MEMCPY_AIM);
    printf("    %-66s %6.2f\n", "plain C / the same", best[PLAIN] / copies.stores);
    printf("    %-66s %6.2f\n", "library / memcpy of them, page after page into one page", best[LIBRARY] / copies.pages);
    printf("    %-66s %6.2f\n", "plain C / the same", best[PLAIN] / copies.pages);
    scene_free(&copies.to);
    scene_free(&task.before);
}

/* Stack */

struct stack_case {
    const struct mover *mover;
    struct scene *scene;
    int call;
};

static void one_call(void *data)
{
    struct stack_case *c = data;
    switch (c->call) {
    case 0: call_split(c->mover, c->scene); break;
    case 1: call_run(c->mover, c->scene, 4160, 200); break;
    case 2: call_mend(c->mover, c->scene); break;
    case 3: call_read(c->mover, c->scene, 77); break;
    case 4: call_rebuild(c->mover, c->scene, 77); break;
    case 5: call_hex_read(c->mover, c->scene); break;
    default: call_hex_write(c->mover, c->scene); break;
    }
}

static double stack_kib(const struct mover *mover, const struct scene *before, int call)
{
    struct scene scene;
    struct stack_case c = {mover, &scene, call};
    double kib;
    scene_copy(&scene, before);
    kib = (double)stack_of(one_call, &c) / 1024;
    scene_free(&scene);
    return kib;
}

static void print_stack(void)
{
    static const char *const names[] = {"split", "run", "mend", "read", "rebuild", "hex read, of records that do not rise", "hex write"};
    static uint8_t text[4096];
    struct scene standing, kept, at_rest;
    make_standing(&standing, 64, 64, 4096, DROPPING, 4160);
    make_standing(&at_rest, 1, 1, 1024, RANDOM, 0);
    make_standing(&kept, 64, 64, 16, CYCLE_UP, 65 * 31 + 64);
    scene_areas(&kept);
    at_rest.text = text;
    at_rest.text_len = mover_hex_bytes(1, 1, 1024);
    hex_falling(&at_rest, text);
    for (int call = 0; call < 7; call++) {
        const struct scene *scene = call < 4 ? &standing : call == 4 ? &kept : &at_rest;
        double library = stack_kib(&movers[LIBRARY], scene, call), plain = stack_kib(&movers[PLAIN], scene, call);
        printf("  %-50s %6.2f KiB %8.2f KiB%s\n", names[call], library, plain, library >= STACK_AIM_KIB ? "  above the aim" : "");
    }
    double listing[BOTH];
    for (int i = 0; i < BOTH; i++)
        listing[i] = (double)stack_of(listing_stack, &i) / 1024;
    printf("  %-50s %6.2f KiB %8.2f KiB%s\n", "check of a listing", listing[LIBRARY], listing[PLAIN], listing[LIBRARY] >= STACK_AIM_KIB ? "  above the aim" : "");
    scene_free(&standing);
    scene_free_areas(&kept);
    scene_free(&kept);
    scene_free(&at_rest);
}

static void compare(void)
{
    enum { REQUESTS = 40000 };
    uint64_t random = seed;
    uint32_t different = disagreements(&movers[LIBRARY], &movers[PLAIN], REQUESTS, &random);
    different += hex_disagreements(&movers[LIBRARY], &movers[PLAIN], REQUESTS, &random);
    if (different != 0)
        stop("requests");
    printf("%d requests of all kinds and %d HEX texts, faulty ones included: answered alike\n\n", (int)REQUESTS, (int)REQUESTS);
}

int main(int count, char **words)
{
    if (count > 1)
        rounds = (uint32_t)strtoul(words[1], NULL, 10);
    if (count > 2)
        seed = strtoull(words[2], NULL, 10);
    if (rounds == 0) {
        fprintf(stderr, "usage: bench [ROUNDS [SEED]]\n");
        return 2;
    }
    compare();
    printf("library / plain C, best of %" PRIu32 " rounds\n", rounds);
    line("split, n = m = 64, random lists", 64, 1, RANDOM, 0, 20, split_job);
    line("split, n = m = 64, random lists, every tenth page dropped", 64, 1, DROPPING, 0, 20, split_job);
    line("split, n = m = 64, page p of block i to block p", 64, 1, TRANSPOSED, 0, 1, split_job);
    whole_move("whole move, n = m = 64, P = 4096, random list", RANDOM);
    whole_move("whole move, every tenth page dropped, random list", DROPPING);
    whole_move("whole move, one cycle of all blocks in each set, up", CYCLE_UP);
    whole_move("whole move, one cycle of all blocks in each set, down", CYCLE_DOWN);
    line("whole move in one call, n = m = 16, P = 512", 16, 512, RANDOM, 0, 1, move_job);
    line("whole move by calls of budget 1, n = m = 16, P = 512", 16, 512, RANDOM, 0, 1, steps_job);
    line("read, n = m = 64, P = 4096, random list, a quarter of the move done", 64, 4096, RANDOM, 65 * 32 + 7, 8, read_job);
    line("read, half of it", 64, 4096, RANDOM, 65 * 64 + 7, 8, read_job);
    line("read, three quarters of it", 64, 4096, RANDOM, 65 * 96 + 7, 8, read_job);
    line("read, every tenth page dropped, a quarter of it", 64, 4096, DROPPING, 65 * 32 + 7, 7, read_job);
    line("read, one cycle of all blocks in each set, a quarter of it", 64, 4096, CYCLE_UP, 65 * 32 + 7, 8, read_job);
    line("read, one cycle of all blocks in each set, three quarters of it", 64, 4096, CYCLE_UP, 65 * 96 + 7, 8, read_job);
    line("mend, n = m = 64, P = 4096, a block to erase", 64, 4096, RANDOM, 65 * 30 + 20, 50, mend_job);
    line("mend, no block to erase", 64, 4096, RANDOM, 65 * 30 + 64, 2000, mend_job);
    line("highest count made afresh", 64, 1, RANDOM, 65 * 30, 20000, refresh_job);
    rebuild_lines();
    hex_lines();
    listing_lines();
    printf("\ndeepest stack %46s %12s\n", movers[LIBRARY].name, movers[PLAIN].name);
    print_stack();
    return 0;
}
