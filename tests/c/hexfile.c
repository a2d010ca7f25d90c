/* Images in files, through the library: hexfile write N M P IMAGE TEXT makes the HEX text of the data bytes, hexfile read N M P TEXT IMAGE
 * the data bytes of a text. The status is 20 if a file fails, else the number returned. */
#include "mover.h"

#include <stdio.h>
#include <stdlib.h>
#include <string.h>

static uint8_t *room(uint64_t bytes)
{
    uint8_t *part = malloc(bytes + 1);
    if (part == NULL)
        exit(20);
    return part;
}

/* The file's bytes; their number, which is at most the room, into *length. */
static uint8_t *load(const char *name, uint64_t most, uint64_t *length)
{
    FILE *file = fopen(name, "rb");
    uint8_t *bytes = room(most);
    if (file == NULL)
        exit(20);
    *length = fread(bytes, 1, most + 1, file);
    if (*length > most || fclose(file) != 0)
        exit(20);
    return bytes;
}

static void save(const char *name, const uint8_t *bytes, uint64_t length)
{
    FILE *file = fopen(name, "wb");
    if (file == NULL || fwrite(bytes, 1, length, file) != length || fclose(file) != 0)
        exit(20);
}

int main(int count, char **words)
{
    enum { LONGEST = 1 << 28 };
    uint32_t n, m, p, number;
    uint64_t spare, image, text_len, got;
    struct mover_move move = {0, 0, 0, 0, NULL, NULL, NULL, NULL, NULL, NULL, NULL};
    uint8_t *text, *bytes;
    if (count != 7)
        return 20;
    move.n = n = (uint32_t)strtoul(words[2], NULL, 10);
    move.m = m = (uint32_t)strtoul(words[3], NULL, 10);
    move.page_bytes = p = (uint32_t)strtoul(words[4], NULL, 10);
    image = (uint64_t)n * m * p;
    spare = (uint64_t)m * p;
    text_len = mover_hex_bytes(n, m, p);
    move.store = room(spare + image);
    move.marks = room(mover_marks_bytes(n, m));
    memset(move.store, 255, spare);
    memset(move.marks, 255, m);
    memset(move.marks + m, 0, (size_t)n * m);
    if (strcmp(words[1], "write") == 0) {
        bytes = load(words[5], image, &got);
        if (got != image)
            return 20;
        memcpy(move.store + spare, bytes, image);
        free(bytes);
        text = room(text_len);
        number = mover_hex_write_move(&move, text);
        if (number == MOVER_DONE)
            save(words[6], text, text_len);
    } else {
        text = load(words[5], LONGEST, &got);
        number = mover_hex_read_move(&move, text, got);
        if (number == MOVER_DONE)
            save(words[6], move.store + spare, image);
    }
    free(text);
    free(move.store);
    free(move.marks);
    return (int)number;
}
