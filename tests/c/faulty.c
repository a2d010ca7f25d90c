/* Calls with one fault each, put in place of the library's by the linker's --wrap: a program that compares must notice them. */
#include "mover.h"

#include <string.h>

#ifdef FAULTY_READ
/* A byte of the page is not what it was. */
uint32_t __real_mover_read(uint32_t n, uint32_t m, uint32_t page_bytes, uint32_t s, const uint8_t *list, uint64_t list_len,
                           const uint8_t *pins, uint64_t pins_len, const uint8_t *sets, uint64_t sets_len, const uint8_t *store,
                           uint64_t store_len, const uint8_t *marks, uint64_t marks_len, uint8_t *work, uint64_t work_len,
                           uint32_t original, uint32_t *count, uint32_t *written_bytes);

uint32_t __wrap_mover_read(uint32_t n, uint32_t m, uint32_t page_bytes, uint32_t s, const uint8_t *list, uint64_t list_len,
                           const uint8_t *pins, uint64_t pins_len, const uint8_t *sets, uint64_t sets_len, const uint8_t *store,
                           uint64_t store_len, const uint8_t *marks, uint64_t marks_len, uint8_t *work, uint64_t work_len,
                           uint32_t original, uint32_t *count, uint32_t *written_bytes)
{
    uint32_t number = __real_mover_read(n, m, page_bytes, s, list, list_len, pins, pins_len, sets, sets_len, store, store_len, marks,
                                        marks_len, work, work_len, original, count, written_bytes);
    if (*count > 2)
        work[page_bytes - 1] ^= 1;
    return number;
}
#endif

#ifdef FAULTY_RUN
/* A page of 255s, which dropped pages leave, has a byte of another. */
uint32_t __real_mover_run(uint32_t n, uint32_t m, uint32_t page_bytes, uint32_t s, const uint8_t *list, uint64_t list_len,
                          const uint8_t *pins, uint64_t pins_len, const uint8_t *sets, uint64_t sets_len, uint8_t *store,
                          uint64_t store_len, uint8_t *marks, uint64_t marks_len, uint8_t *work, uint64_t work_len, uint8_t *wear,
                          uint64_t wear_len, uint32_t place, uint32_t budget, uint32_t wear_limit, uint32_t *place_reached,
                          uint32_t *steps, uint32_t *writes, uint32_t *erases, uint32_t *finished, uint32_t *written_bytes,
                          uint32_t *pages_read);

uint32_t __wrap_mover_run(uint32_t n, uint32_t m, uint32_t page_bytes, uint32_t s, const uint8_t *list, uint64_t list_len,
                          const uint8_t *pins, uint64_t pins_len, const uint8_t *sets, uint64_t sets_len, uint8_t *store,
                          uint64_t store_len, uint8_t *marks, uint64_t marks_len, uint8_t *work, uint64_t work_len, uint8_t *wear,
                          uint64_t wear_len, uint32_t place, uint32_t budget, uint32_t wear_limit, uint32_t *place_reached,
                          uint32_t *steps, uint32_t *writes, uint32_t *erases, uint32_t *finished, uint32_t *written_bytes,
                          uint32_t *pages_read)
{
    uint32_t number = __real_mover_run(n, m, page_bytes, s, list, list_len, pins, pins_len, sets, sets_len, store, store_len, marks,
                                       marks_len, work, work_len, wear, wear_len, place, budget, wear_limit, place_reached, steps,
                                       writes, erases, finished, written_bytes, pages_read);
    if (number == MOVER_DONE && *writes == 1 && *written_bytes == 0)
        work[page_bytes - 1] = 0;
    return number;
}
#endif

#ifdef FAULTY_MEND
/* Recovery leaves the unfinished block as it is. */
uint32_t __wrap_mover_mend(uint32_t n, uint32_t m, uint32_t page_bytes, uint32_t s, uint8_t *store, uint64_t store_len,
                           uint8_t *marks, uint64_t marks_len, uint8_t *wear, uint64_t wear_len, uint32_t *place, uint32_t *erases);
uint32_t __real_mover_mend(uint32_t n, uint32_t m, uint32_t page_bytes, uint32_t s, uint8_t *store, uint64_t store_len,
                           uint8_t *marks, uint64_t marks_len, uint8_t *wear, uint64_t wear_len, uint32_t *place, uint32_t *erases);

uint32_t __wrap_mover_mend(uint32_t n, uint32_t m, uint32_t page_bytes, uint32_t s, uint8_t *store, uint64_t store_len,
                           uint8_t *marks, uint64_t marks_len, uint8_t *wear, uint64_t wear_len, uint32_t *place, uint32_t *erases)
{
    uint32_t number = __real_mover_mend(n, m, page_bytes, s, store, store_len, marks, marks_len, wear, wear_len, place, erases);
    *erases = 0;
    return number;
}
#endif

#ifdef FAULTY_COUNT
/* Recovery erases a block and does not count it. */
uint32_t __real_mover_mend(uint32_t n, uint32_t m, uint32_t page_bytes, uint32_t s, uint8_t *store, uint64_t store_len,
                           uint8_t *marks, uint64_t marks_len, uint8_t *wear, uint64_t wear_len, uint32_t *place, uint32_t *erases);

uint32_t __wrap_mover_mend(uint32_t n, uint32_t m, uint32_t page_bytes, uint32_t s, uint8_t *store, uint64_t store_len,
                           uint8_t *marks, uint64_t marks_len, uint8_t *wear, uint64_t wear_len, uint32_t *place, uint32_t *erases)
{
    uint8_t before[MOVER_WEAR_BYTES];
    uint32_t number;
    memcpy(before, wear, sizeof before);
    number = __real_mover_mend(n, m, page_bytes, s, store, store_len, marks, marks_len, wear, wear_len, place, erases);
    memcpy(wear, before, sizeof before);
    return number;
}
#endif

#ifdef FAULTY_OPERATION
/* The mark of the second pass is that of the first. */
uint32_t __real_mover_operation(uint32_t n, uint32_t m, uint32_t s, uint32_t place, uint32_t *kind, uint32_t *block, uint32_t *page,
                                uint32_t *mark);

uint32_t __wrap_mover_operation(uint32_t n, uint32_t m, uint32_t s, uint32_t place, uint32_t *kind, uint32_t *block, uint32_t *page,
                                uint32_t *mark)
{
    uint32_t number = __real_mover_operation(n, m, s, place, kind, block, page, mark);
    if (*kind == MOVER_WRITE)
        *mark = (s + 1) % 3;
    return number;
}
#endif
