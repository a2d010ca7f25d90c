/* HEX texts for both movers: those that they write, in another order, with other line ends and digits, and spoiled. */
#include "../examples/demo/random.h"
#include "agree.h"
#include "mover.h"

#include <stdlib.h>
#include <string.h>

enum { ROOM = 1 << 20 };

static uint8_t text[ROOM], other[ROOM];

/* The number of bytes up to the line feed and with it, or all that are left. */
static uint64_t line_length(const uint8_t *at, uint64_t left)
{
    uint64_t i;
    for (i = 0; i < left; i++)
        if (at[i] == '\n')
            return i + 1;
    return left;
}

/* Two lines that follow one another change places, now and then; small letters; carriage returns. */
static uint64_t rearrange(uint64_t length, uint64_t *random)
{
    uint64_t at, next, to = 0, first, second;
    uint32_t small = random_below(random, 2), feeds = random_below(random, 2), swaps = random_below(random, 3);
    for (at = 0; at < length; at = next) {
        first = line_length(text + at, length - at);
        next = at + first;
        second = line_length(text + next, length - next);
        if (second > 12 && random_below(random, 4) < swaps) {
            memcpy(other + to, text + next, second);
            memcpy(other + to + second, text + at, first);
            to += first + second;
            next += second;
        } else {
            memcpy(other + to, text + at, first);
            to += first;
        }
        if (feeds && random_below(random, 2) && other[to - 1] == '\n') {
            other[to - 1] = '\r';
            other[to++] = '\n';
        }
    }
    for (at = 0; at < to; at++)
        text[at] = small && other[at] >= 'A' && other[at] <= 'F' ? other[at] | 32 : other[at];
    return to;
}

/* One fault, or none: a byte, a record again, or the end of the text. */
static uint64_t spoil(uint64_t length, uint64_t *random)
{
    static const uint8_t odd[] = "0123456789ABCDEFabcdef:\r\n gG/@`";
    uint32_t at = random_below(random, (uint32_t)length);
    uint64_t first;
    switch (random_below(random, 6)) {
    case 0: text[at] = odd[random_below(random, sizeof odd)]; return length;
    case 1: text[at] = (uint8_t)random_below(random, 256); return length;
    case 2: return length - random_below(random, (uint32_t)length + 1);
    case 3:
        first = line_length(text, length);
        memmove(text + first, text, length);
        return length + first;
    default: return length;
    }
}

static int agree_once(const struct mover *a, const struct mover *b, uint64_t *random)
{
    struct scene first, second;
    uint32_t one, two;
    int same, wide = random_below(random, 200) == 0;
    scene_make(&first, 1 + random_below(random, 5), wide ? 10 : 1 + random_below(random, 4), wide ? 4000 : 1 + random_below(random, 40),
               RANDOM, random);
    first.text = text;
    first.text_len = mover_hex_bytes(first.n, first.m, first.page_bytes);
    if (random_below(random, 8) == 0)
        first.store[random_below(random, (uint32_t)first.store_len)] = 7;
    if (random_below(random, 8) == 0)
        first.marks[random_below(random, (uint32_t)first.marks_len)] = (uint8_t)random_below(random, 4);
    scene_copy(&second, &first);
    second.text = other;
    one = call_hex_write(a, &first).number;
    two = call_hex_write(b, &second).number;
    same = one == two && (one != 0 || memcmp(text, other, first.text_len) == 0);
    if (one == 0) {
        first.text_len = second.text_len = spoil(rearrange(first.text_len, random), random);
        second.text = text;
        memset(first.store, 1, first.store_len);
        memset(second.store, 1, second.store_len);
        same = same && call_hex_read(a, &first).number == call_hex_read(b, &second).number && scene_same(&first, &second);
    }
    scene_free(&first);
    scene_free(&second);
    return same;
}

uint32_t hex_disagreements(const struct mover *a, const struct mover *b, uint32_t requests, uint64_t *random)
{
    uint32_t different = 0;
    for (uint32_t i = 0; i < requests; i++)
        different += !agree_once(a, b, random);
    return different;
}
