/* Step listings of other movers, from C: accepted, answered no, and refused at a line. */
#include "calls.h"
#include "mover.h"

#include <string.h>

/* The step program's example: by the method, and by the same with the lowest block as top, which loses a page. */
static const char by_method[] = "0 W 0 0 0 2\n1 E 1\n2 W 1 0 0 1\n3 E 2\n4 W 2 0 2\n5 E 3\n6 W 3 0 1\n7 E 2\n8 W 2 0 0\n9 E 1\n10 W 1 0 2\n"
                                "11 E 0\nend 6 6\n";
static const char losing[] = "0 W 0 0 0\n1 E 1\n2 W 1 0 0 1\n3 E 2\n4 W 2 0 1 2\n5 E 3\n6 W 3 0 1\n7 E 2\n8 W 2 0 0\n9 E 1\n10 W 1 0 2\n"
                             "11 E 0\nend 6 6\n";

/* Two blocks of one page that trade places, in plain copies. */
#define COPIES "0 W 0 0 0\n1 E 1\n2 W 1 0 1\n3 E 2\n4 W 2 0 0\n5 E 0\n"

static const uint8_t trade[] = {1, 0, 0, 0}, turn[] = {1, 0, 2, 0, 0, 0}, stays[] = {0, 0, 1, 0};

static void gives(const char *what, uint32_t n, uint32_t m, const uint8_t *list, uint64_t list_len, const char *text, uint32_t number,
                  uint32_t line, uint32_t accepted)
{
    uint32_t got, got_line = 77, got_accepted = 77;
    got = mover_check_listing(n, m, list, list_len, (const uint8_t *)text, strlen(text), &got_line, &got_accepted);
    check(what, got == number && got_line == line && got_accepted == accepted);
}

static void trades(const char *what, const char *text, uint32_t number, uint32_t line, uint32_t accepted)
{
    gives(what, 2, 1, trade, 4, text, number, line, accepted);
}

static void answers_checked(void)
{
    gives("the method's listing", 3, 1, turn, 6, by_method, MOVER_DONE, 0, 1);
    gives("the lowest block as top", 3, 1, turn, 6, losing, MOVER_LOST_ORIGINAL, 8, 0);
    gives("nothing to do", 2, 1, stays, 4, "end 0 0\n", MOVER_DONE, 0, 1);
    gives("another list", 2, 1, stays, 4, COPIES "end 3 3\n", MOVER_DONE, 0, 0);
    trades("plain copies", COPIES "end 3 3\n", MOVER_DONE, 0, 1);
    trades("a wrong count", COPIES "end 3 2\n", MOVER_DONE, 0, 0);
    trades("a huge count", COPIES "end 3 18446744073709551619\n", MOVER_DONE, 0, 0);
    trades("no end line", COPIES, MOVER_DONE, 0, 0);
    trades("an empty text", "", MOVER_DONE, 0, 0);
    trades("nothing done", "end 0 0\n", MOVER_DONE, 0, 0);
    trades("a spare that is not blank", "0 W 0 0 0\n1 E 1\n2 W 1 0 1\n3 E 2\n4 W 2 0 0\nend 3 2\n", MOVER_DONE, 0, 0);
}

static void lines_checked(void)
{
    trades("an empty line", "\n", MOVER_BAD_LINE, 1, 0);
    trades("no line feed", "end 0 0", MOVER_BAD_LINE, 1, 0);
    trades("a carriage return", "end 0 0\r\n", MOVER_BAD_LINE, 1, 0);
    trades("a zero before a number", "00 E 0\n", MOVER_BAD_LINE, 1, 0);
    trades("two spaces", "0  E 0\n", MOVER_BAD_LINE, 1, 0);
    trades("a wrong step", "0 E 0\n2 E 0\n", MOVER_BAD_LINE, 2, 0);
    trades("no original", "0 W 0 0\n", MOVER_BAD_LINE, 1, 0);
    trades("an original twice", "0 W 0 0 1 1\n", MOVER_BAD_LINE, 1, 0);
    trades("falling originals", "0 W 0 0 1 0\n", MOVER_BAD_LINE, 1, 0);
    trades("original n * m", "0 W 0 0 2\n", MOVER_BAD_LINE, 1, 0);
    trades("page m", "0 W 0 1 0\n", MOVER_BAD_LINE, 1, 0);
    trades("block n + 1", "0 E 3\n", MOVER_BAD_LINE, 1, 0);
    trades("a huge block", "0 E 4294967296\n", MOVER_BAD_LINE, 1, 0);
    trades("after the end line", COPIES "end 3 3\n6 E 0\n", MOVER_BAD_LINE, 8, 0);
    trades("a page not blank", "0 W 1 0 1\n", MOVER_BAD_WRITE, 1, 0);
    trades("the same page again", "0 W 0 0 0\n1 W 0 0 1\n", MOVER_BAD_WRITE, 2, 0);
    trades("13 before 14", "0 W 1 0 2\n", MOVER_BAD_LINE, 1, 0);
    trades("an erase without a copy", "0 E 0\n1 E 1\nx\n", MOVER_LOST_ORIGINAL, 2, 0);
    gives("pages may be skipped", 1, 2, stays, 4, "0 W 0 1 0\n1 E 0\n2 W 0 0 1\n3 E 0\nend 2 2\n", MOVER_DONE, 0, 1);
    gives("but not gone back to", 1, 2, stays, 4, "0 W 0 1 0\n1 W 0 0 1\n", MOVER_BAD_WRITE, 2, 0);
}

static void refused_checked(void)
{
    static const uint8_t twice[] = {1, 0, 1, 0}, dropping[] = {255, 255, 0, 0}, many[130];
    uint32_t line = 77, accepted = 77;
    gives("n = 0", 0, 1, trade, 4, "x\n", MOVER_BAD_SIZES, 0, 0);
    gives("65 pages", 13, 5, many, 130, "x\n", MOVER_BAD_SIZES, 0, 0);
    gives("n = m = 65536", 65536, 65536, trade, 0, "x\n", MOVER_BAD_SIZES, 0, 0);
    gives("a list too short", 2, 1, trade, 3, "x\n", MOVER_BAD_LENGTH, 0, 0);
    gives("an entry twice", 2, 1, twice, 4, "x\n", MOVER_BAD_LIST, 0, 0);
    gives("a dropped page", 2, 1, dropping, 4, "x\n", MOVER_BAD_LIST, 0, 0);
    check("no text at all", mover_check_listing(2, 1, trade, 4, NULL, 0, &line, &accepted) == MOVER_DONE && line == 0 && accepted == 0);
}

void listing_checked(void)
{
    answers_checked();
    lines_checked();
    refused_checked();
}
