/* By hand: the sum of pages, up to five in one pass over the bytes, and the count of its bytes that are not 255 in the last pass. To add 255s
 * is to turn the sum over, which the first pass does. */
#include "plain.h"
#include "plain_inner.h"

uint64_t plain_bytes_summed;

typedef uint8_t vector __attribute__((vector_size(16)));

enum { WIDTH = sizeof(vector), VECTORS = 4, MOST = 5 };

static inline vector load(const uint8_t *from)
{
    vector v;
    memcpy(&v, from, sizeof v);
    return v;
}

/* One pass over up to five pages. How many they are, whether `to` is added, whether the sum is counted and turned over are constants wherever
 * it is called, so that the compiler makes a loop for each. 255s are counted by lane: a comparison of vectors gives 255, which is 0 - 1, where
 * bytes are equal. A lane is met once in 64 bytes, 64 times in a page, so that a byte has room for two of them. */
static inline uint32_t pass(uint8_t *restrict to, const uint8_t *const *pages, uint32_t terms, int add, int counts, int turned,
                            size_t bytes)
{
    vector blank, erased[VECTORS] = {{0}};
    const uint8_t *page[MOST];
    uint32_t written = 0;
    size_t i;
    memset(&blank, ERASED, sizeof blank);
    for (uint32_t k = 0; k < terms; k++)
        page[k] = pages[k];
    for (i = 0; i + VECTORS * WIDTH <= bytes; i += VECTORS * WIDTH)
        for (int j = 0; j < VECTORS; j++) {
            size_t at = i + (size_t)j * WIDTH;
            vector sum = load(page[0] + at);
            for (uint32_t k = 1; k < terms; k++)
                sum ^= load(page[k] + at);
            if (add)
                sum ^= load(to + at);
            if (turned)
                sum = ~sum;
            if (counts)
                erased[j] -= (vector)(sum == blank);
            memcpy(to + at, &sum, WIDTH);
        }
    if (counts) {
        vector one = erased[0] + erased[1], two = erased[2] + erased[3];
        written = (uint32_t)i;
        for (int j = 0; j < WIDTH; j++)
            written -= (uint32_t)one[j] + two[j];
    }
    for (; i < bytes; i++) {
        uint8_t sum = (uint8_t)((add ? to[i] : 0) ^ (turned ? 255 : 0));
        for (uint32_t k = 0; k < terms; k++)
            sum ^= page[k][i];
        to[i] = sum;
        written += sum != ERASED;
    }
    return written;
}

/* The first pass takes as many as leave a multiple of four. */
static inline uint32_t sum(uint8_t *to, const uint8_t *const *pages, uint32_t count, int turned, uint32_t bytes)
{
    uint32_t done = count == 1 ? 1 : 2 + (count - 2) % 4, written = 0;
    int last = done == count;
    switch (done) {
    case 1: written = pass(to, pages, 1, 0, 1, turned, bytes); break;
    case 2: written = last ? pass(to, pages, 2, 0, 1, turned, bytes) : pass(to, pages, 2, 0, 0, turned, bytes); break;
    case 3: written = last ? pass(to, pages, 3, 0, 1, turned, bytes) : pass(to, pages, 3, 0, 0, turned, bytes); break;
    case 4: written = last ? pass(to, pages, 4, 0, 1, turned, bytes) : pass(to, pages, 4, 0, 0, turned, bytes); break;
    default: written = last ? pass(to, pages, 5, 0, 1, turned, bytes) : pass(to, pages, 5, 0, 0, turned, bytes); break;
    }
    for (; done < count; done += 4)
        written = done + 4 == count ? pass(to, pages + done, 4, 1, 1, 0, bytes) : pass(to, pages + done, 4, 1, 0, 0, bytes);
    return written;
}

uint32_t plain_sum(uint8_t *to, const uint8_t *const *pages, uint32_t count, int turned, uint32_t bytes)
{
    plain_bytes_summed += (uint64_t)count * bytes;
    if (count == 0) {
        memset(to, turned ? ERASED : 0, bytes);
        return turned ? 0 : bytes;
    }
    return turned ? sum(to, pages, count, 1, bytes) : sum(to, pages, count, 0, bytes);
}
