/* The mover by hand in plain C, to measure the library against: the same calls, the same refusals, the same bytes. */
#ifndef PLAIN_H
#define PLAIN_H

#include <stdint.h>

uint32_t plain_split(uint32_t n, uint32_t m, uint32_t page_bytes, uint32_t s,
                     const uint8_t *list, uint64_t list_len, const uint8_t *pins, uint64_t pins_len,
                     uint8_t *sets, uint64_t sets_len);

uint32_t plain_run(uint32_t n, uint32_t m, uint32_t page_bytes, uint32_t s,
                   const uint8_t *list, uint64_t list_len, const uint8_t *pins, uint64_t pins_len, const uint8_t *sets, uint64_t sets_len,
                   uint8_t *store, uint64_t store_len, uint8_t *marks, uint64_t marks_len, uint8_t *work, uint64_t work_len,
                   uint8_t *wear, uint64_t wear_len, uint32_t place, uint32_t budget, uint32_t wear_limit,
                   uint32_t *place_reached, uint32_t *steps, uint32_t *writes, uint32_t *erases, uint32_t *finished,
                   uint32_t *written_bytes, uint32_t *pages_read);

uint32_t plain_mend(uint32_t n, uint32_t m, uint32_t page_bytes, uint32_t s,
                    uint8_t *store, uint64_t store_len, uint8_t *marks, uint64_t marks_len, uint8_t *wear, uint64_t wear_len,
                    uint32_t *place, uint32_t *erases);

uint32_t plain_wear_refresh(uint8_t *wear, uint64_t wear_len);

uint32_t plain_read(uint32_t n, uint32_t m, uint32_t page_bytes, uint32_t s,
                    const uint8_t *list, uint64_t list_len, const uint8_t *pins, uint64_t pins_len, const uint8_t *sets, uint64_t sets_len,
                    const uint8_t *store, uint64_t store_len, const uint8_t *marks, uint64_t marks_len,
                    uint8_t *work, uint64_t work_len, uint32_t original, uint32_t *count, uint32_t *written_bytes);

uint32_t plain_rebuild(uint32_t n, uint32_t m, uint32_t page_bytes, uint32_t s,
                       const uint8_t *list, uint64_t list_len, const uint8_t *pins, uint64_t pins_len, const uint8_t *sets, uint64_t sets_len,
                       const uint8_t *store, uint64_t store_len, const uint8_t *marks, uint64_t marks_len,
                       uint8_t *area, uint64_t area_len, uint8_t *flags, uint64_t flags_len, uint32_t slot);

uint32_t plain_hex_read(uint32_t n, uint32_t m, uint32_t page_bytes, const uint8_t *text, uint64_t text_len,
                        uint8_t *store, uint64_t store_len, uint8_t *marks, uint64_t marks_len);

uint32_t plain_hex_write(uint32_t n, uint32_t m, uint32_t page_bytes, const uint8_t *store, uint64_t store_len,
                         const uint8_t *marks, uint64_t marks_len, uint8_t *text, uint64_t text_len);

uint32_t plain_check_listing(uint32_t n, uint32_t m, const uint8_t *list, uint64_t list_len, const uint8_t *text, uint64_t text_len,
                             uint32_t *line, uint32_t *accepted);

/* How many bytes plain_run has summed since the start: what a memcpy of as many bytes is timed against. */
extern uint64_t plain_bytes_summed;

#endif
