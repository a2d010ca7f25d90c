/* Checks a listing of another mover's steps, read from standard input: check N M ENTRY .. <LISTING. Without arguments it checks a listing of its own. */
#include <mover.h>
#include <stdio.h>
#include <stdlib.h>
#include <string.h>

enum { MOST_ENTRIES = 64, MOST_TEXT = 1 << 20 };

static uint8_t list[2 * MOST_ENTRIES];
static char text[MOST_TEXT];

/* Two pages trade places by way of the spare; the erase of step 1 is one too early: nothing else holds page 0 then. */
static const char own[] = "0 W 0 0 1\n1 E 1\nend 1 1\n";

static const char *reason(uint32_t status)
{
    switch (status) {
    case MOVER_DONE: return "would survive a cut at any line";
    case MOVER_BAD_SIZES: return "the sizes are out of range";
    case MOVER_BAD_LENGTH: return "the list has another length";
    case MOVER_BAD_LIST: return "the list is not one-to-one";
    case MOVER_BAD_LINE: return "this is no line of a listing";
    case MOVER_BAD_WRITE: return "the page is not blank, or lies below one that was written";
    case MOVER_LOST_ORIGINAL: return "an original is lost";
    default: return "?";
    }
}

/* Prints line `number` of the text, counted from 1. */
static void print_line(uint32_t number)
{
    const char *line = text;
    while (--number > 0 && strchr(line, '\n') != NULL)
        line = strchr(line, '\n') + 1;
    printf("%.*s\n", (int)strcspn(line, "\n"), line);
}

int main(int count, char **words)
{
    uint32_t n = 2, m = 1, k, line, accepted, status;
    uint64_t entries = 2, length;

    mover_send(list, 0, 1);
    mover_send(list, 1, 0);
    if (count > 2) {
        n = (uint32_t)strtoul(words[1], NULL, 10);
        m = (uint32_t)strtoul(words[2], NULL, 10);
        entries = (uint64_t)(count - 3) < MOST_ENTRIES ? (uint64_t)(count - 3) : MOST_ENTRIES;
        for (k = 0; k < entries; k++)
            mover_send(list, k, (uint32_t)strtoul(words[3 + k], NULL, 10));
        length = fread(text, 1, sizeof text - 1, stdin);
    } else {
        memcpy(text, own, sizeof own);
        length = strlen(own);
    }

    status = mover_check_listing(n, m, list, 2 * entries, (const uint8_t *)text, length, &line, &accepted);
    printf("%s\n", status == MOVER_DONE && !accepted ? "no line is faulty, but the listing does not end as the list asks" : reason(status));
    if (line > 0) {
        printf("line %u: ", (unsigned)line);
        print_line(line);
    }
    if (count > 2)
        return accepted ? 0 : 1;
    return !(status == MOVER_LOST_ORIGINAL && line == 2);
}
