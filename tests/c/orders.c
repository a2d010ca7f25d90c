/* Orders of blocks from C: the least y, the page that rules out the one below it, and the best order. */
#include "calls.h"
#include "mover.h"

#include <stdio.h>
#include <string.h>

enum { MOST = 64 * 64, GUARD = 173 };

/* "Data Movement in Flash Memories", Figure 1 (a), and the set of hearts of "Data Movement and Aggregation": block i goes to entry i, from 1. */
static const uint8_t fourteen[] = {9, 4, 5, 14, 7, 13, 3, 10, 6, 12, 11, 1, 2, 8};
static const uint8_t twenty_one[] = {6, 1, 10, 12, 11, 9, 5, 17, 16, 14, 13, 19, 15, 8, 21, 20, 2, 18, 7, 3, 4};

static uint8_t list[2 * MOST], own[64];

static void listed(const uint32_t *entries, uint32_t count)
{
    uint32_t k;
    for (k = 0; k < count; k++)
        mover_send(list, k, entries[k]);
}

static void least(const char *what, uint32_t n, uint32_t m, uint64_t list_len, const uint8_t *order, uint64_t order_len, uint32_t number,
                  uint32_t y, uint32_t page)
{
    uint32_t got, got_y = 77, got_page = 77;
    got = mover_least_y(n, m, list, list_len, order, order_len, &got_y, &got_page);
    check(what, got == number && got_y == y && got_page == page);
}

/* The order is lent between two guard bytes, which stay; after a refusal the lent bytes stay too. */
static void best(const char *what, uint32_t n, uint32_t m, uint64_t list_len, uint64_t order_len, uint32_t number, const char *order, uint32_t y,
                 uint32_t page)
{
    uint8_t lent[66];
    char text[66] = "";
    uint32_t got, got_y = 77, got_page = 77, i;
    memset(lent, GUARD, sizeof lent);
    got = mover_best_order(n, m, list, list_len, lent + 1, order_len, &got_y, &got_page);
    for (i = 0; got == MOVER_DONE && i < order_len; i++)
        text[i] = (char)('0' + lent[1 + i]);
    check(what, got == number && got_y == y && got_page == page && strcmp(text, order) == 0);
    for (i = got == MOVER_DONE ? (uint32_t)order_len + 1 : 0; i < sizeof lent; i++)
        if (lent[i] != GUARD)
            break;
    check(what, lent[0] == GUARD && i == sizeof lent);
}

static void papers_checked(void)
{
    uint32_t k;
    for (k = 0; k < 14; k++)
        mover_send(list, k, fourteen[k] - 1u);
    least("the 14 blocks", 14, 1, 28, own, 14, MOVER_DONE, 8, 13);
    for (k = 0; k < 21; k++)
        mover_send(list, k, twenty_one[k] - 1u);
    least("the 21 blocks", 21, 1, 42, own, 21, MOVER_DONE, 8, 13);
}

static void answers_checked(void)
{
    static const uint32_t turn[] = {1, 2, 0}, both_ways[] = {4, 5, 2, 3, 0, 1}, all_ways[] = {2, 4, 0, 5, 1, 3};
    static const uint32_t across[] = {2, 3, 0, 1}, seven[] = {2, 9, 4, 1, 5, 7, 12, 11, 8, 0, 13, 3, 10, 6};
    uint32_t k;
    listed(turn, 3);
    least("three blocks", 3, 1, 6, own, 3, MOVER_DONE, 1, 2);
    least("a better order", 3, 1, 6, (const uint8_t *)"\1\3\2", 3, MOVER_DONE, 0, 0);
    least("page 0", 3, 1, 6, (const uint8_t *)"\2\3\1", 3, MOVER_DONE, 1, 0);
    best("the best of three", 3, 1, 6, 3, MOVER_DONE, "132", 0, 0);
    mover_drop(list, 2);
    least("the page is dropped", 3, 1, 6, own, 3, MOVER_DONE, 0, 0);
    best("so the own order is good", 3, 1, 6, 3, MOVER_DONE, "123", 0, 0);
    listed(both_ways, 6);
    least("the lowest of two pages", 3, 2, 12, own, 3, MOVER_DONE, 1, 4);
    least("and of two others", 3, 2, 12, (const uint8_t *)"\3\2\1", 3, MOVER_DONE, 1, 0);
    listed(all_ways, 6);
    best("none is better than the first", 3, 2, 12, 3, MOVER_DONE, "123", 1, 4);
    listed(across, 4);
    least("y = n - 2", 4, 1, 8, own, 4, MOVER_DONE, 2, 3);
    listed(seven, 14);
    best("seven blocks", 7, 2, 28, 7, MOVER_DONE, "2153476", 1, 11);
    for (k = 0; k < MOST; k++)
        mover_send(list, k, MOST - 1 - k);
    least("64 blocks of 64 pages turned round", 64, 64, 2 * MOST, own, 64, MOVER_DONE, 31, 33 * 64);
    for (k = 0; k < MOST; k++)
        mover_drop(list, k);
    least("all dropped", 64, 64, 2 * MOST, own, 64, MOVER_DONE, 0, 0);
    best("seven blocks of 64 pages, all dropped", 7, 64, 2 * 7 * 64, 7, MOVER_DONE, "1234567", 0, 0);
}

/* Each number alone, and before the one that is looked for after it. */
static void refused_checked(void)
{
    static const uint32_t turn[] = {1, 2, 0, 3, 4, 5, 6, 7}, twice[] = {1, 1, 0}, above[] = {1, 2, 3};
    const uint8_t *doubled = (const uint8_t *)"\1\1\3", *zero = (const uint8_t *)"\1\0\3", *four = (const uint8_t *)"\1\2\4";
    listed(turn, 8);
    least("n = 0", 0, 1, 0, own, 0, MOVER_BAD_SIZES, 0, 0);
    least("n = 65", 65, 1, 130, own, 65, MOVER_BAD_SIZES, 0, 0);
    least("m = 0", 3, 0, 0, own, 3, MOVER_BAD_SIZES, 0, 0);
    least("m = 65 before 16", 2, 65, 0, own, 0, MOVER_BAD_SIZES, 0, 0);
    least("n = m = 65536", 65536, 65536, 0, own, 0, MOVER_BAD_SIZES, 0, 0);
    least("n = 1", 1, 1, 2, own, 1, MOVER_BAD_BLOCKS, 0, 0);
    least("n = 2", 2, 1, 4, own, 2, MOVER_BAD_BLOCKS, 0, 0);
    least("n = 2 before a wrong length", 2, 1, 3, own, 1, MOVER_BAD_BLOCKS, 0, 0);
    least("a list too short", 3, 1, 4, own, 3, MOVER_BAD_LENGTH, 0, 0);
    least("an odd list", 3, 1, 7, own, 3, MOVER_BAD_LENGTH, 0, 0);
    least("an odd list of two blocks", 2, 1, 5, own, 2, MOVER_BAD_BLOCKS, 0, 0);
    least("a list too long", 3, 1, 2 * MOST, own, 3, MOVER_BAD_LENGTH, 0, 0);
    least("an order too short", 3, 1, 6, own, 2, MOVER_BAD_LENGTH, 0, 0);
    least("an order too long", 3, 1, 6, own, 4, MOVER_BAD_LENGTH, 0, 0);
    least("no order", 3, 1, 6, NULL, 0, MOVER_BAD_LENGTH, 0, 0);
    least("a block twice", 3, 1, 6, doubled, 3, MOVER_BAD_ORDER, 0, 0);
    least("block 0", 3, 1, 6, zero, 3, MOVER_BAD_ORDER, 0, 0);
    least("block n + 1", 3, 1, 6, four, 3, MOVER_BAD_ORDER, 0, 0);
    best("the search of two blocks", 2, 1, 4, 2, MOVER_BAD_BLOCKS, "", 0, 0);
    best("the search of eight blocks", 8, 1, 16, 8, MOVER_BAD_BLOCKS, "", 0, 0);
    best("eight before a wrong length", 8, 1, 15, 7, MOVER_BAD_BLOCKS, "", 0, 0);
    best("no blocks", 0, 1, 0, 0, MOVER_BAD_SIZES, "", 0, 0);
    best("65 blocks before 16", 65, 1, 0, 0, MOVER_BAD_SIZES, "", 0, 0);
    best("another length", 3, 1, 6, 4, MOVER_BAD_LENGTH, "", 0, 0);
    best("another length of the list", 3, 1, 5, 3, MOVER_BAD_LENGTH, "", 0, 0);
    listed(above, 3);
    least("an entry above", 3, 1, 6, own, 3, MOVER_BAD_LIST, 0, 0);
    listed(twice, 3);
    least("an entry twice", 3, 1, 6, own, 3, MOVER_BAD_LIST, 0, 0);
    least("an entry twice before a block twice", 3, 1, 6, doubled, 3, MOVER_BAD_LIST, 0, 0);
    least("a wrong length before an entry twice", 3, 1, 6, own, 2, MOVER_BAD_LENGTH, 0, 0);
    best("the search with an entry twice", 3, 1, 6, 3, MOVER_BAD_LIST, "", 0, 0);
    best("a wrong length before that", 3, 1, 6, 2, MOVER_BAD_LENGTH, "", 0, 0);
}

void orders_checked(void)
{
    uint32_t i;
    for (i = 0; i < 64; i++)
        own[i] = (uint8_t)(i + 1);
    papers_checked();
    answers_checked();
    refused_checked();
}
