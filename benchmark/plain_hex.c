/* By hand: Intel HEX. A text is judged whole before the first byte is written, and then walked once more. Digits go by tables, both ways. */
#include "plain.h"
#include "plain_inner.h"

enum { SPAN = 65536, SPANS = 256, CHUNK = 16, SHORTEST = 12 };

/* What a character adds to a sum of bytes as their low digit, and as the high one: its value and, far above, one for being a digit. */
#define ONE (UINT32_C(1) << 20)
#define VALUE(V, X) (ONE + (V) * (X))
#define LETTERS(A, X) \
    [A] = VALUE(10, X), [A + 1] = VALUE(11, X), [A + 2] = VALUE(12, X), [A + 3] = VALUE(13, X), [A + 4] = VALUE(14, X), [A + 5] = VALUE(15, X)
#define DIGITS(X)                                                                                                       \
    ['0'] = VALUE(0, X), ['1'] = VALUE(1, X), ['2'] = VALUE(2, X), ['3'] = VALUE(3, X), ['4'] = VALUE(4, X),            \
    ['5'] = VALUE(5, X), ['6'] = VALUE(6, X), ['7'] = VALUE(7, X), ['8'] = VALUE(8, X), ['9'] = VALUE(9, X),            \
    LETTERS('A', X), LETTERS('a', X)

static const uint32_t low[256] = {DIGITS(1)}, high[256] = {DIGITS(16)};

/* What two characters add. */
static inline uint32_t pair(const uint8_t *at)
{
    return high[at[0]] + low[at[1]];
}

static inline uint32_t byte_at(const uint8_t *at)
{
    return pair(at) & 255;
}

/* The first eight digits of a record. */
struct header {
    uint32_t count, address, type;
};

static inline struct header header_at(const uint8_t *record)
{
    struct header h = {byte_at(record + 1), byte_at(record + 3) << 8 | byte_at(record + 5), byte_at(record + 7)};
    return h;
}

static inline uint32_t upper_half(const uint8_t *record)
{
    return byte_at(record + 9) << 8 | byte_at(record + 11);
}

static int type_fits(struct header h)
{
    return h.type == 0 ? h.count != 0 : h.address == 0 && h.count == (h.type == 4 ? 2 : 0) && (h.type == 4 || h.type == 1);
}

/* How far a character is above the lowest digit of its kind, or 255 where it is none. */
static inline uint8_t rank(uint8_t c)
{
    uint8_t d = (uint8_t)(c - '0'), l = (uint8_t)((c | 32) - 'a');
    d = d > 249 ? 255 : (uint8_t)(d + 6);
    l = l > 245 ? 255 : (uint8_t)(l + 10);
    return d < l ? d : l;
}

/* The value of a character that is a digit, by its bits: letters have bit 6. */
static inline uint8_t value(uint8_t digit)
{
    return (uint8_t)((digit & 15) + 9 * (digit >> 6));
}

/* Sixteen bytes. */
static inline uint32_t sum_of_chunk(const uint8_t *at)
{
    uint8_t worst = 0, high = 0, low = 0;
    for (uint32_t i = 0; i < CHUNK; i++) {
        uint8_t a = at[2 * i], b = at[2 * i + 1], ra = rank(a), rb = rank(b), r = ra > rb ? ra : rb;
        worst = worst > r ? worst : r;
        high = (uint8_t)(high + value(a));
        low = (uint8_t)(low + value(b));
    }
    return (uint8_t)(high * 16 + low) + (worst < 16 ? 2 * CHUNK * ONE : 0);
}

/* Two sums, so that one need not wait for the other. */
static inline uint32_t sum_of(const uint8_t *at, uint32_t pairs)
{
    uint32_t a = 0, b = 0, i;
    if (pairs == CHUNK + 5)
        return sum_of_chunk(at + 8) + pair(at) + pair(at + 2) + pair(at + 4) + pair(at + 6) + pair(at + 40);
    for (i = 0; i + 4 <= pairs; i += 4, at += 8) {
        a += pair(at) + pair(at + 2);
        b += pair(at + 4) + pair(at + 6);
    }
    for (; i < pairs; i++, at += 2)
        a += pair(at);
    return a + b;
}

/* The length of a record with its line end, or 0 if it is malformed. One sum tells whether all are digits and the checksum is right. */
static inline uint64_t record_length(const uint8_t *at, uint64_t left, struct header *h)
{
    uint32_t sum, pairs;
    uint64_t end;
    if (left < SHORTEST || at[0] != ':')
        return 0;
    *h = header_at(at);
    end = 11 + 2 * (uint64_t)h->count;
    if (left <= end)
        return 0;
    pairs = h->count + 5;
    sum = sum_of(at + 1, pairs);
    if (sum / ONE != 2 * pairs || sum % 256 != 0 || !type_fits(*h))
        return 0;
    if (at[end] == '\n')
        return end + 1;
    return at[end] == '\r' && left > end + 1 && at[end + 1] == '\n' ? end + 2 : 0;
}

/* The length of a record that is known to be good. */
static inline uint64_t good_length(const uint8_t *at, uint32_t count)
{
    uint64_t end = 11 + 2 * (uint64_t)count;
    return at[end] == '\n' ? end + 1 : end + 2;
}

/* What the first pass finds: the number of the first fault that is not a byte given twice, how much of the text is good before it, and
 * the spans in which the records do not rise. Where each starts at the end of the one before or above it, none overlap. */
struct judged {
    uint32_t number;
    uint64_t good;
    uint32_t end[SPANS];
    uint8_t fell[SPANS];
};

/* The number of a record that is well formed: 9, or 0 if it is noted. */
static inline uint32_t note(struct judged *j, struct header h, uint32_t upper, uint64_t image)
{
    uint32_t end = h.address + h.count;
    if (end > SPAN || (uint64_t)upper * SPAN + end > image)
        return 9;
    j->fell[upper] |= h.address < j->end[upper];
    j->end[upper] = end;
    return 0;
}

static void judge(struct judged *j, const uint8_t *text, uint64_t text_len, uint64_t image)
{
    uint32_t upper = 0, ended = 0;
    memset(j, 0, sizeof *j);
    while (j->good < text_len) {
        const uint8_t *record = text + j->good;
        struct header h;
        uint64_t length = ended ? 0 : record_length(record, text_len - j->good, &h);
        if (length == 0)
            j->number = ended ? 10 : 8;
        else if (h.type == 0)
            j->number = note(j, h, upper, image);
        else if (h.type == 4)
            upper = upper_half(record);
        else
            ended = 1;
        if (j->number != 0)
            return;
        j->good += length;
    }
    j->number = ended ? 0 : 10;
}

/* Whether the places from start to end are free; they are taken then. */
static int take_places(uint64_t *map, uint32_t start, uint32_t end)
{
    uint64_t met = 0;
    while (start < end) {
        uint32_t bits = 64 - start % 64 < end - start ? 64 - start % 64 : end - start;
        uint64_t mask = ~UINT64_C(0) >> (64 - bits) << start % 64;
        met |= map[start / 64] & mask;
        map[start / 64] |= mask;
        start += bits;
    }
    return met == 0;
}

/* Whether a byte of a span is given twice by the good records. */
static int is_doubled(uint32_t span, const uint8_t *text, uint64_t good)
{
    uint64_t map[SPAN / 64];
    uint32_t upper = 0;
    memset(map, 0, sizeof map);
    for (uint64_t at = 0; at < good;) {
        const uint8_t *record = text + at;
        struct header h = header_at(record);
        if (h.type == 4)
            upper = upper_half(record);
        else if (h.type == 0 && upper == span && !take_places(map, h.address, h.address + h.count))
            return 1;
        at += good_length(record, h.count);
    }
    return 0;
}

/* A chunk of known length, which compilers make vector instructions of. */
static inline void put_chunk(uint8_t *restrict to, const uint8_t *restrict digits)
{
    for (uint32_t i = 0; i < CHUNK; i++)
        to[i] = (uint8_t)(value(digits[2 * i]) * 16 + value(digits[2 * i + 1]));
}

static inline void put_bytes(uint8_t *restrict to, const uint8_t *restrict digits, uint32_t bytes)
{
    uint32_t i;
    if (bytes == CHUNK) {
        put_chunk(to, digits);
        return;
    }
    for (i = 0; i + 4 <= bytes; i += 4) {
        to[i] = (uint8_t)pair(digits + 2 * i);
        to[i + 1] = (uint8_t)pair(digits + 2 * i + 2);
        to[i + 2] = (uint8_t)pair(digits + 2 * i + 4);
        to[i + 3] = (uint8_t)pair(digits + 2 * i + 6);
    }
    for (; i < bytes; i++)
        to[i] = (uint8_t)pair(digits + 2 * i);
}

static void fill(const struct sizes *z, const uint8_t *text, uint64_t text_len, uint8_t *store, uint8_t *marks)
{
    uint64_t upper = 0, slots = (uint64_t)(z->n + 1) * z->m;
    uint8_t *image = store + (uint64_t)z->m * z->p;
    memset(store, ERASED, slots * z->p);
    memset(marks, ERASED, z->m);
    memset(marks + z->m, 0, slots - z->m);
    for (uint64_t at = 0; at < text_len;) {
        const uint8_t *record = text + at;
        struct header h = header_at(record);
        if (h.type == 4)
            upper = upper_half(record);
        else if (h.type == 0)
            put_bytes(image + upper * SPAN + h.address, record + 9, h.count);
        at += good_length(record, h.count);
    }
}

uint32_t plain_hex_read(uint32_t n, uint32_t m, uint32_t page_bytes, const uint8_t *text, uint64_t text_len,
                        uint8_t *store, uint64_t store_len, uint8_t *marks, uint64_t marks_len)
{
    struct sizes z = {n, m, page_bytes, 0};
    struct judged j;
    if (!sizes_fit(&z))
        return 1;
    if (store_len != (uint64_t)(n + 1) * m * page_bytes || marks_len != (n + 1) * m)
        return 2;
    judge(&j, text, text_len, (uint64_t)n * m * page_bytes);
    for (uint32_t span = 0; span < SPANS; span++)
        if (j.fell[span] && is_doubled(span, text, j.good))
            return 10;
    if (j.number == 0)
        fill(&z, text, text_len, store, marks);
    return j.number;
}

/* Writing */

/* The two digits of each byte. */
#define ROW(H) H "0" H "1" H "2" H "3" H "4" H "5" H "6" H "7" H "8" H "9" H "A" H "B" H "C" H "D" H "E" H "F"
static const char both[] = ROW("0") ROW("1") ROW("2") ROW("3") ROW("4") ROW("5") ROW("6") ROW("7") ROW("8") ROW("9") ROW("A") ROW("B")
    ROW("C") ROW("D") ROW("E") ROW("F");

static inline void put_byte(uint8_t *to, uint32_t byte)
{
    memcpy(to, both + 2 * (byte & 255), 2);
}

/* A record with its line feed; returns what comes behind it. */
static inline uint8_t *put_record(uint8_t *restrict to, uint32_t type, uint32_t address, const uint8_t *restrict data, uint32_t count)
{
    uint32_t sum = count + (address >> 8) + address + type;
    to[0] = ':';
    put_byte(to + 1, count);
    put_byte(to + 3, address >> 8);
    put_byte(to + 5, address);
    put_byte(to + 7, type);
    to += 9;
    for (uint32_t i = 0; i < count; i++)
        sum += data[i];
    for (uint32_t i = 0; i < count; i++)
        put_byte(to + 2 * i, data[i]);
    put_byte(to + 2 * count, 0 - sum);
    to[2 * count + 2] = '\n';
    return to + 2 * count + 3;
}

static int bytes_are(const uint8_t *bytes, uint64_t count, uint8_t due)
{
    uint8_t other = 0;
    for (uint64_t i = 0; i < count; i++)
        other |= bytes[i] ^ due;
    return other == 0;
}

static uint64_t text_length(uint64_t image)
{
    return 2 * image + 12 * ((image + 15) / 16) + 16 * ((image - 1) / SPAN) + 12;
}

/* The records of one span. */
static uint8_t *put_span(uint8_t *restrict text, const uint8_t *restrict data, uint32_t count)
{
    uint32_t at;
    for (at = 0; at + CHUNK <= count; at += CHUNK)
        text = put_record(text, 0, at, data + at, CHUNK);
    return at < count ? put_record(text, 0, at, data + at, count - at) : text;
}

uint32_t plain_hex_write(uint32_t n, uint32_t m, uint32_t page_bytes, const uint8_t *store, uint64_t store_len,
                         const uint8_t *marks, uint64_t marks_len, uint8_t *text, uint64_t text_len)
{
    struct sizes z = {n, m, page_bytes, 0};
    uint64_t image = (uint64_t)n * m * page_bytes, spare = (uint64_t)m * page_bytes;
    if (!sizes_fit(&z))
        return 1;
    if (store_len != image + spare || marks_len != (n + 1) * m || text_len != text_length(image))
        return 2;
    if (!bytes_are(marks, m, ERASED) || !bytes_are(marks + m, n * m, 0) || !bytes_are(store, spare, ERASED))
        return 5;
    for (uint64_t at = 0; at < image; at += SPAN) {
        uint8_t upper[2] = {0, (uint8_t)(at / SPAN)};
        if (at != 0)
            text = put_record(text, 4, 0, upper, 2);
        text = put_span(text, store + spare + at, image - at < SPAN ? (uint32_t)(image - at) : SPAN);
    }
    put_record(text, 1, 0, store, 0);
    return 0;
}
