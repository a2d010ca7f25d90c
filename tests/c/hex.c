/* Intel HEX from C: texts read, refused and written. */
#include "calls.h"
#include "mover.h"

#include <string.h>

/* The call reads a text into a store of 2 blocks of 2 pages of 2 bytes, or refuses it and leaves the store. */
static void hex_reads(const char *what, const char *text, uint32_t number, const uint8_t *image)
{
    uint8_t store[13], marks[7], due_store[13], due_marks[7];
    uint32_t got;
    memset(store, 0xA5, sizeof store);
    memset(marks, 0xA5, sizeof marks);
    memcpy(due_store, store, sizeof store);
    memcpy(due_marks, marks, sizeof marks);
    if (image != NULL) {
        memset(due_store, 255, 4);
        memcpy(due_store + 4, image, 8);
        memset(due_marks, 255, 2);
        memset(due_marks + 2, 0, 4);
    }
    got = mover_hex_read(2, 2, 2, (const uint8_t *)text, strlen(text), store, 12, marks, 6);
    check(what, got == number && memcmp(store, due_store, sizeof store) == 0 && memcmp(marks, due_marks, sizeof marks) == 0);
}

static void hex_reads_checked(void)
{
    static const uint8_t all[] = {1, 2, 3, 4, 5, 6, 7, 8}, some[] = {0, 255, 255, 255, 255, 255, 10, 11};
    static const uint8_t none[] = {255, 255, 255, 255, 255, 255, 255, 255};

    hex_reads("one record", ":080000000102030405060708D4\n:00000001FF\n", MOVER_DONE, all);
    hex_reads("a space in it", ":080000000102030405060708 D4\n:00000001FF\n", MOVER_BAD_RECORD, NULL);
    hex_reads("falling records", ":0400040005060708DE\n:0400000001020304F2\n:00000001FF\n", MOVER_DONE, all);
    hex_reads("small digits, carriage returns, gaps", ":020006000a0be3\r\n:0100000000ff\r\n:00000001ff\r\n", MOVER_DONE, some);
    hex_reads("no data", ":00000001FF\n", MOVER_DONE, none);
    hex_reads("an upper half of 0", ":020000040000FA\n:080000000102030405060708D4\n:00000001FF\n", MOVER_DONE, all);
    hex_reads("a wrong checksum", ":080000000102030405060708D5\n:00000001FF\n", MOVER_BAD_RECORD, NULL);
    hex_reads("a type of other programs", ":0400000500000000F7\n:00000001FF\n", MOVER_BAD_RECORD, NULL);
    hex_reads("no line feed at the end", ":00000001FF", MOVER_BAD_RECORD, NULL);
    hex_reads("an empty line", "\n:00000001FF\n", MOVER_BAD_RECORD, NULL);
    hex_reads("a byte too far", ":0100080000F7\n:00000001FF\n", MOVER_BAD_ADDRESS, NULL);
    hex_reads("another upper half", ":020000040001F9\n:0100000000FF\n:00000001FF\n", MOVER_BAD_ADDRESS, NULL);
    hex_reads("a byte twice", ":0100000000FF\n:0100000000FF\n:00000001FF\n", MOVER_BAD_TEXT, NULL);
    hex_reads("no end record", ":0100000000FF\n", MOVER_BAD_TEXT, NULL);
    hex_reads("an empty text", "", MOVER_BAD_TEXT, NULL);
    hex_reads("a line after the end", ":00000001FF\n\n", MOVER_BAD_TEXT, NULL);
    hex_reads("the first faulty record decides", ":0100080000F7\nx\n", MOVER_BAD_ADDRESS, NULL);
    hex_reads("8 before 9 on a record", ":0100080000F8\n:00000001FF\n", MOVER_BAD_RECORD, NULL);
}

static void hex_lengths_checked(void)
{
    static const uint8_t end[] = ":00000001FF\n";
    uint8_t store[12] = {7}, marks[6] = {7};
    check("n = 65", mover_hex_read(65, 2, 2, end, 12, store, 12, marks, 6) == MOVER_BAD_SIZES);
    check("a store too short", mover_hex_read(2, 2, 2, end, 12, store, 11, marks, 6) == MOVER_BAD_LENGTH);
    check("marks too short", mover_hex_read(2, 2, 2, end, 12, store, 12, marks, 5) == MOVER_BAD_LENGTH);
    check("2 before 8", mover_hex_read(2, 2, 2, end, 11, store, 12, marks, 5) == MOVER_BAD_LENGTH);
    check("no text at all", mover_hex_read(2, 2, 2, NULL, 0, store, 12, marks, 6) == MOVER_BAD_TEXT);
    check("refused, and left", store[0] == 7 && marks[0] == 7);
    check("the longest text", mover_hex_bytes(64, 64, 4096) == 46141436);
    check("a text of one byte", mover_hex_bytes(1, 1, 1) == 14 + 12);
    check("64 KiB have no upper half", mover_hex_bytes(4, 4, 4096) == 4096 * 44 + 12);
    check("one page more has one", mover_hex_bytes(1, 17, 4096) == 17 * 256 * 44 + 16 + 12);
}

static void hex_writes_checked(void)
{
    static const char due[] = ":10000000F0F1F2F3F4F5F6F7F8F9FAFBFCFDFEFF78\n:0400100001020304E2\n:00000001FF\n";
    uint8_t store[24] = {255, 255, 255, 255, 240, 241, 242, 243, 244, 245, 246, 247, 248, 249, 250, 251, 252, 253, 254, 255, 1, 2, 3, 4};
    uint8_t marks[6] = {255, 0, 0, 0, 0, 0}, text[100], blank[100];
    const uint64_t length = sizeof due - 1;
    memset(text, 0xA5, sizeof text);
    memcpy(blank, text, sizeof text);
    check("its length", mover_hex_bytes(5, 1, 4) == length);
    check("a text too long", mover_hex_write(5, 1, 4, store, 24, marks, 6, text, length + 1) == MOVER_BAD_LENGTH);
    check("n = 0", mover_hex_write(0, 1, 4, store, 24, marks, 6, text, length) == MOVER_BAD_SIZES);
    marks[5] = 2;
    check("a store that has moved", mover_hex_write(5, 1, 4, store, 24, marks, 6, text, length) == MOVER_BAD_PLACE);
    marks[5] = 0;
    store[3] = 254;
    check("a spare that is not blank", mover_hex_write(5, 1, 4, store, 24, marks, 6, text, length) == MOVER_BAD_PLACE);
    store[3] = 255;
    marks[0] = 100;
    check("a spare with a half-written mark", mover_hex_write(5, 1, 4, store, 24, marks, 6, text, length) == MOVER_BAD_PLACE);
    marks[0] = 255;
    check("nothing written so far", memcmp(text, blank, sizeof text) == 0);
    check("twenty bytes", mover_hex_write(5, 1, 4, store, 24, marks, 6, text, length) == MOVER_DONE);
    check("their text", memcmp(text, due, length) == 0 && memcmp(text + length, blank + length, sizeof text - length) == 0);
    check("read again", mover_hex_read(5, 1, 4, text, length, blank, 24, blank + 24, 6) == MOVER_DONE);
    check("the same store", memcmp(blank, store, 24) == 0 && memcmp(blank + 24, marks, 6) == 0);
}

void hex_checked(void)
{
    hex_reads_checked();
    hex_lengths_checked();
    hex_writes_checked();
}
