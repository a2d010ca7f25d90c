#include "spare.h"

#include <string.h>

enum { WORD_BYTES = 4, LETTERS = 3, NOT_WRITTEN = 255 };

/* Half of the bits of each word are ones, and any two words differ in half of their bits; so do a word and a blank area. */
static const uint8_t code_words[LETTERS] = {0x0F, 0x33, 0x55};

/* CRC-32, bit by bit; a table makes it eight times as fast. */
static uint32_t checksum(uint32_t sum, const uint8_t *bytes, uint32_t count)
{
    for (uint32_t i = 0; i < count; i++) {
        sum ^= bytes[i];
        for (int bit = 0; bit < 8; bit++)
            sum = sum >> 1 ^ (sum & 1 ? UINT32_C(0xEDB88320) : 0);
    }
    return sum;
}

/* The letter's code word, then a checksum of slot, letter and bytes. */
void spare_make(uint8_t *spare, uint32_t letter, uint64_t slot, const uint8_t *bytes, uint32_t page_bytes)
{
    const uint8_t about[3] = {(uint8_t)(slot & 255), (uint8_t)(slot >> 8 & 255), (uint8_t)letter};
    uint32_t sum = checksum(checksum(UINT32_MAX, about, sizeof about), bytes, page_bytes);
    memset(spare, code_words[letter], WORD_BYTES);
    for (int i = 0; i < SPARE_BYTES - WORD_BYTES; i++)
        spare[WORD_BYTES + i] = (uint8_t)(sum >> 8 * i & 255);
}

uint8_t spare_mark(const uint8_t *spare, uint64_t slot, const uint8_t *bytes, uint32_t page_bytes)
{
    uint8_t due[SPARE_BYTES];
    for (uint8_t letter = 0; letter < LETTERS; letter++) {
        if (spare[0] != code_words[letter])
            continue;
        spare_make(due, letter, slot, bytes, page_bytes);
        return memcmp(spare, due, SPARE_BYTES) == 0 ? letter : NOT_WRITTEN;
    }
    return NOT_WRITTEN;
}
