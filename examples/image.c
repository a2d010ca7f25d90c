/* From HEX file to HEX file: reads the image of a flash of 4 blocks of 2 pages of 16 bytes, turns the order of its pages round, and writes
 * the image of the result: image IN OUT */
#include <mover.h>
#include <stdio.h>
#include <string.h>

enum { N = 4, M = 2, P = 16, S = 0, LONGEST = 65536 };

static uint8_t list[2 * N * M], pins[N * M], sets[N * M], store[(N + 1) * M * P], marks[(N + 1) * M], work[P];
static uint8_t wear[MOVER_WEAR_BYTES], text[LONGEST];
static const struct mover_move move = {N, M, P, S, list, pins, sets, store, marks, work, wear};

static int fail(const char *what, uint32_t number)
{
    fprintf(stderr, "image: %s (%u)\n", what, (unsigned)number);
    return 1;
}

int main(int count, char **words)
{
    FILE *in = count == 3 ? fopen(words[1], "rb") : NULL, *out;
    uint64_t length = mover_hex_bytes(N, M, P);
    struct mover_state at;
    uint32_t k, number;

    if (in == NULL)
        return fail("usage: image IN OUT", 0);
    number = mover_hex_read_move(&move, text, fread(text, 1, LONGEST, in));     /* a store at rest, marked 0 */
    fclose(in);
    if (number != MOVER_DONE)
        return fail("the file is refused", number);                             /* 8, 9 or 10 */

    for (k = 0; k < N * M; k++)
        mover_send(list, k, N * M - 1 - k);                                     /* the last page comes first */
    number = mover_split_move(&move);
    if (number == MOVER_DONE)
        number = mover_run_move(&move, 0, UINT32_MAX, UINT32_MAX, &at);
    if (number != MOVER_DONE)
        return fail("no move", number);

    memset(marks + M, 0, N * M);                                                /* the move left 2: an image has mark 0 */
    number = mover_hex_write_move(&move, text);
    out = number == MOVER_DONE ? fopen(words[2], "wb") : NULL;
    if (out == NULL || fwrite(text, 1, (size_t)length, out) != length || fclose(out) != 0)
        return fail("nothing is written", number);
    return 0;
}
