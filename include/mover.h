/* The proved page mover, for C.
 *
 * A flash has n data blocks and one spare block, m pages a block. A move sends every page of the data blocks to a place of its
 * own, by a list, or throws it away. It is a row of 2 * n * (m + 1) steps; a step writes one page or erases one block. Power may fail at any moment:
 * recovery brings the move to a place from which it goes on, and every original page that is kept can be read all the time.
 *
 * Besides the flash, these must outlast a power cut until the move is finished: the list, n, m, page_bytes and s; the sets too,
 * unless mover_split makes them again from the same list. A page's mark must be programmed last, or together with the page: a
 * page whose write was cut must not show a letter, but 255 or a half-written mark, 3 to 254. What else a cut may leave: pages of a
 * block that was being erased, each as it was, or with such a mark and any bytes.
 *
 * Every call is total: it takes any numbers and any lengths, tests them, and either carries out the request and returns 0, or
 * returns the first refusal number that fits: they are looked for in the order in which the call's comment names them. No call
 * allocates, prints or keeps anything.
 *
 * Numbers in
 *   n            data blocks, 1 to 64; they are blocks 1 to n, and the spare is block 0
 *   m            pages a block, 1 to 64
 *   page_bytes   bytes a page, 1 to 4096
 *   s            the letter that marks the data blocks before the move, 0, 1 or 2; after it they are marked (s + 2) % 3, which is
 *                the s of the next move
 *   place        how many steps of the move are done, 0 to 2 * n * (m + 1)
 *   budget       how many steps to take at most, any number
 *   wear_limit   how many erases a block may have had after the move, any number; UINT32_MAX unless the record nears it
 *   original     an original page, 0 to n * m - 1: number k is page k % m of block k / m + 1 before the move
 *   slot         a stored page, 0 to (n + 1) * m - 1: number t is page t % m of block t / m, whatever it holds just now
 *
 * Lent parts: a pointer and a length in bytes, which must be exact. NULL goes with length 0.
 *   list         2 * n * m bytes: entry k, two bytes, low byte first, is the page number 0 to n * m - 1 where original k goes, or
 *                MOVER_DROPPED: then it is thrown away, see below
 *   pins         n * m bytes: where byte k is not 0, original k is pinned: it must end at its old address, and a list that sends it
 *                elsewhere or drops it is refused. Without pins: n * m zeros. They do nothing else: a move may go on with others
 *   sets         n * m bytes: the set of each original, 0 to m - 1, as mover_split fills them; the same through the whole move
 *   store        (n + 1) * m * page_bytes bytes: the pages, block after block, the spare first
 *   marks        (n + 1) * m bytes, one a page in the same order: 0, 1 or 2 where a page is written, 255 where none is; 3 to 254 only
 *                where a cut left it so: mover_mend, mover_read and mover_rebuild count it as 255, mover_run refuses it with 5
 *   work         page_bytes bytes to work in
 *   wear         MOVER_WEAR_BYTES: a counter of erases for each of blocks 0 to 64, however many there are, four bytes each, low byte first; then
 *                the highest count, four bytes in the same order, and the lowest block that has it, one byte. It belongs to the chip and not
 *                to the move: keep it as long as the chip
 *   area         n * m * page_bytes bytes: the originals that mover_rebuild has rebuilt, in the order of their numbers
 *   flags        n * m bytes: for each original 1 if it is rebuilt, 0 if it is lost
 *   order        n bytes: the numbers of the data blocks, each once, in the order in which a coding would name them
 *   text         an Intel HEX file; mover_hex_write fills exactly mover_hex_bytes, mover_hex_read takes any length; or a step listing of any length
 *
 * A DROPPED PAGE, whose entry is MOVER_DROPPED, is 255s throughout from the first call that takes the list: read gives them at once, while
 * its old bytes may still lie in the store, and they cannot be had back. At the end the first dropped page, by number, has left its 255s at the
 * first page number that no entry names, the second at the second, and so on. They are written, marked like any other page, and no byte of
 * them counts as a load. Any number of pages may be dropped, also all. The list is never changed.
 *
 * WEAR. mover_run and mover_mend add one to the counter of a block for each erase that they finish; a counter at UINT32_MAX stays there. A
 * call that is cut returns nothing, and its erases are in no record: with one step a call a cut loses one erase at most. mover_run looks at the
 * limit where a move begins, at place 0, and nowhere else. A cut in the first block makes mover_mend lead back there and count its erase, so a
 * limit that was just kept may then refuse the move; every page can still be read, and a higher limit takes the move on.
 *
 * Each erase also brings the highest count and its block up to date: a higher count replaces both, an equal one at a lower block replaces the
 * block. If they are right before a call, so are they after it; a new chip's record, all zeros, is right, and mover_wear_refresh makes any
 * record right. No call looks whether they are.
 *
 * Before a move the pages of blocks 1 to n have mark s, and those of block 0 have mark 255 and bytes 255 throughout.
 *
 * WHAT MUST SURVIVE A POWER CUT: the list (or how to make it again), the sizes and s, outside the blocks that move, and a note of
 * your own that a move is pending. Erased flash reads as entries of MOVER_DROPPED, and a list that was not written to its end is not refused
 * for them: keep a checksum with it. The sets can be made again by mover_split. At start-up, if a move is pending: mover_split, mover_mend,
 * mover_run; after the finish the note is cleared and s moves on. A wrong s, list or split is not noticed, and gives nonsense. Without a
 * pending move mover_mend is not called: it would erase the blank spare.
 *
 * On a chip a mark must not be a bare byte, which may read as another letter after a cut: keep a code word and a checksum, and give 255 for
 * whatever is not exact (docs/CHIPS.md).
 *
 * No two lent parts of a call may overlap, nor may a lent part and a number out, nor two numbers out. A number out is a pointer that
 * must not be NULL. This is all that a caller has to take care of; the rest is tested. The helpers at the end, which take a struct, assert
 * that its parts are apart, unless NDEBUG is defined.
 *
 * After a refusal every number out is 0, but for the line of 13, 14 and 15, and every lent byte is as it was.
 */
#ifndef MOVER_H
#define MOVER_H

#include <assert.h>
#include <stdint.h>

#ifdef __cplusplus
extern "C" {
#endif

enum mover_refusal {
    MOVER_DONE = 0,          /* carried out */
    MOVER_BAD_SIZES = 1,     /* n, m, page_bytes or s out of its range */
    MOVER_BAD_LENGTH = 2,    /* the length of a lent part is wrong */
    MOVER_BAD_LIST = 3,      /* a list entry at or above n * m other than MOVER_DROPPED, or one below n * m met twice; where no page can be
                              * dropped, MOVER_DROPPED too */
    MOVER_BAD_SPLIT = 4,     /* the sets aren't a split of the list, each dropped page taken to go where its 255s go */
    MOVER_BAD_PLACE = 5,     /* place above 2 * n * (m + 1), marks other than that place has, or a page marked 255 not blank */
    MOVER_BAD_MARKS = 6,     /* marks fit no moment of the move: see mover_mend */
    MOVER_BAD_ORIGINAL = 7,  /* original number at or above n * m, or a slot at or above (n + 1) * m */
    MOVER_BAD_RECORD = 8,    /* a HEX record of another form or type, or with a wrong checksum */
    MOVER_BAD_ADDRESS = 9,   /* a HEX data byte outside the image, or a record that runs over a 64 KiB span */
    MOVER_BAD_TEXT = 10,     /* a HEX data byte given twice, no end record, or anything after it */
    MOVER_BAD_PINS = 11,     /* the list sends a pinned page to another address, or drops it; this comes between 3 and 4 */
    MOVER_BAD_WEAR = 12,     /* a move from place 0 would wear a block past the limit; this comes after 5 */
    MOVER_BAD_LINE = 13,     /* a line of a listing of another form, with a wrong number, or after the end line */
    MOVER_BAD_WRITE = 14,    /* a line that writes where the page is not blank, or where a higher one has been written after the last erase */
    MOVER_LOST_ORIGINAL = 15, /* a line after which an original could no longer be had */
    MOVER_BAD_BLOCKS = 16,   /* n below 3, or above MOVER_MOST_SEARCHED for the search; this comes before 2 */
    MOVER_BAD_ORDER = 17     /* bytes that are no order: a block comes twice, or there is none of that number; this comes after 3 */
};

/* The list entry of a page that is thrown away. */
enum mover_entry {
    MOVER_DROPPED = 65535
};

/* The length of the record of erases, and the blocks it has counters for. */
enum mover_wear {
    MOVER_COUNTERS = 65,
    MOVER_WEAR_BYTES = 4 * MOVER_COUNTERS + 5
};

/* The most blocks whose orders mover_best_order tries. */
enum mover_search {
    MOVER_MOST_SEARCHED = 7
};

/* What the step at a place does. */
enum mover_kind {
    MOVER_WRITE = 0,         /* writes a page with its mark */
    MOVER_ERASE = 1,         /* erases a block */
    MOVER_END = 2            /* nothing: the move is finished */
};

/* Splits the list into m sets, in each of which every data block sends one page and gets one, and fills `sets`. What was in `sets`
 * does not matter. The same list always gives the same sets, so after a power cut they can be made again from the list.
 * Returns 0, or 1, 2, 3 or 11. */
uint32_t mover_split(uint32_t n, uint32_t m, uint32_t page_bytes, uint32_t s,
                     const uint8_t *list, uint64_t list_len, const uint8_t *pins, uint64_t pins_len,
                     uint8_t *sets, uint64_t sets_len);

/* Takes steps of the move from `place` on: `budget` of them, or up to the last one if that is sooner. A budget of 0 only tests.
 *   *place_reached  the place after the last step taken, where the next run goes on
 *   *steps          the steps taken, of which *writes wrote a page and *erases erased a block
 *   *finished       1 if the place reached is 2 * n * (m + 1), else 0
 *   *written_bytes  how many bytes of the pages written, all together, are not 255: the load of programming them. 0 to *writes * page_bytes,
 *                   and never above 2 * n * m * page_bytes, which is at most 33554432
 *   *pages_read     how many stored pages were summed for the pages written, all together: never above n for one of them, nor above
 *                   2 * n * n * m for a whole move, which is at most 524288. A dropped page of which 255s are taken adds none
 * Changes `store`, `marks`, `work` and `wear`; `work` is left with the last page written, or as it was if none was. A pinned page travels
 * like any other and lies at its old address again only from when it is written there in the second pass. A dropped page adds 255s
 * to the pages that are written, whatever bytes it has left.
 * From place 0, with a budget of 0 too, the number is 12 if a block of the store would come to more erases than wear_limit by a whole move without
 * a cut, which erases the first block and the last once and the others twice. From another place the limit does nothing.
 * Returns 0, or 1, 2, 3, 11, 4, 5 or 12. */
uint32_t mover_run(uint32_t n, uint32_t m, uint32_t page_bytes, uint32_t s,
                   const uint8_t *list, uint64_t list_len, const uint8_t *pins, uint64_t pins_len, const uint8_t *sets, uint64_t sets_len,
                   uint8_t *store, uint64_t store_len, uint8_t *marks, uint64_t marks_len, uint8_t *work, uint64_t work_len,
                   uint8_t *wear, uint64_t wear_len, uint32_t place, uint32_t budget, uint32_t wear_limit,
                   uint32_t *place_reached, uint32_t *steps, uint32_t *writes, uint32_t *erases, uint32_t *finished,
                   uint32_t *written_bytes, uint32_t *pages_read);

/* Recovery, to be called after every power cut before the next run. Reads the marks and erases the block that is unfinished, if
 * there is one; it may itself be cut, and called again.
 *   *place   where the move goes on; 2 * n * (m + 1) if it is finished
 *   *erases  1 if a block was erased, else 0; it is the block that mover_operation tells of at *place, which at the end is 0, the spare
 * Changes only that block's bytes, marks and counter, and the highest count with its block.
 * A block whose pages all have the same letter is full of it; a block that is full of none is unfinished. The number is 6 unless, letters
 * counted modulo 3, one of these is so:
 *   one block is unfinished, all below it are full of s + 1, and all above it of s
 *   one block is unfinished, all below it are full of s + 1, and all above it of s + 2
 *   no block is unfinished; the first of them, one or more, are full of s + 1, and the rest, one or more, of s
 *   no block is unfinished; the first of them, one or more, are full of s + 1, and the rest, one or more, of s + 2
 * What marks an unfinished block has, and where, is not looked into.
 * Returns 0, or 1, 2 or 6. */
uint32_t mover_mend(uint32_t n, uint32_t m, uint32_t page_bytes, uint32_t s,
                    uint8_t *store, uint64_t store_len, uint8_t *marks, uint64_t marks_len, uint8_t *wear, uint64_t wear_len,
                    uint32_t *place, uint32_t *erases);

/* Makes the highest count of a record, and the lowest block that has it, afresh from its 65 counters. Changes only these five bytes.
 * Returns 0, or 2 if the length is not MOVER_WEAR_BYTES. */
uint32_t mover_wear_refresh(uint8_t *wear, uint64_t wear_len);

/* Reads an original at any moment of the move, also after a cut and before recovery: puts it into `work`. A dropped one is 255s.
 *   *count          how many stored pages were summed for it, 1 to n; 0 for a dropped one
 *   *written_bytes  how many bytes of it are not 255, 0 to page_bytes; 0 for a dropped one
 * Changes only `work`.
 * Returns 0, or 1, 2, 3, 11, 4, 6 or 7. */
uint32_t mover_read(uint32_t n, uint32_t m, uint32_t page_bytes, uint32_t s,
                    const uint8_t *list, uint64_t list_len, const uint8_t *pins, uint64_t pins_len, const uint8_t *sets, uint64_t sets_len,
                    const uint8_t *store, uint64_t store_len, const uint8_t *marks, uint64_t marks_len,
                    uint8_t *work, uint64_t work_len, uint32_t original, uint32_t *count, uint32_t *written_bytes);

/* Rebuilds the originals without the page of one slot, which the chip's error correction has given up: at any moment of the move, also after a
 * cut and before recovery. What the store has in that slot is not looked at, and may be anything. Only pages of full blocks are used. `area` is
 * filled with the pages of all originals, and `flags` says of each:
 *   1  rebuilt: as mover_read would sum it, if that leaves the slot out; else by the one other sum that such pages of its set have for it,
 *      which is that sum and one of the set that makes zeros, in which the slot cancels
 *   0  lost: no sum of the pages that are left gives it, and its page in `area` is 255s
 * A slot of the block that is unfinished, or, if there is none, of the one that was filled last, loses nothing. Any other slot can lose originals
 * of its own set only, so one of each block at most. A page that is 255s in `area` may be rebuilt: the flag tells.
 * No page is dropped here: an entry of MOVER_DROPPED is 3. Neither a work page nor the record of erases is lent.
 * Changes only `area` and `flags`, and all of both: what was in them does not matter.
 * Returns 0, or 1, 2, 3, 11, 4, 6, or 7 for the slot. */
uint32_t mover_rebuild(uint32_t n, uint32_t m, uint32_t page_bytes, uint32_t s,
                       const uint8_t *list, uint64_t list_len, const uint8_t *pins, uint64_t pins_len, const uint8_t *sets, uint64_t sets_len,
                       const uint8_t *store, uint64_t store_len, const uint8_t *marks, uint64_t marks_len,
                       uint8_t *area, uint64_t area_len, uint8_t *flags, uint64_t flags_len, uint32_t slot);

/* Tells the step at a place, for a program that has to do it on a chip.
 *   *kind    a mover_kind
 *   *block   the block to write in or to erase, 0 to n
 *   *page    the page to write, 0 to m - 1
 *   *mark    the mark to write with it, 0, 1 or 2
 * A number that does not apply is 0: page and mark of an erase, and all three at the end.
 * Returns 0, or 1 if n, m or s is out of its range, or 5 if the place is above 2 * n * (m + 1). */
uint32_t mover_operation(uint32_t n, uint32_t m, uint32_t s, uint32_t place,
                         uint32_t *kind, uint32_t *block, uint32_t *page, uint32_t *mark);

/* A store at rest from an Intel HEX file of its data bytes, whose addresses count from the start of block 1: the n * m * page_bytes
 * bytes from there on are the image. Where the text gives no byte there will be 255, the spare is left blank, and all data blocks are
 * marked 0, so that the next move has s = 0. What was in `store` and `marks` does not matter. The text may have
 *   data records (type 00) of 1 to 255 bytes, in any order
 *   upper halves of addresses (type 04), anywhere and of any value; before the first the upper half is 0
 *   the end record (type 01), as the last
 * with digits of either case. Each ends with a line feed, which one carriage return may precede. The first record that is faulty decides:
 * 8 if it is malformed, else 9, else 10; a text whose records are all good but which lacks the end record is 10.
 * Returns 0, or 1, 2, 8, 9 or 10. */
uint32_t mover_hex_read(uint32_t n, uint32_t m, uint32_t page_bytes, const uint8_t *text, uint64_t text_len,
                        uint8_t *store, uint64_t store_len, uint8_t *marks, uint64_t marks_len);

/* The Intel HEX file of a store at rest with s = 0, which mover_hex_read gives back: data records of 16 bytes, the last one of what is
 * left, with rising addresses, a record of type 04 where the upper half changes, and the end record; capital digits, a line feed after each.
 * Changes only `text`. A move leaves marks of (s + 2) % 3: for the file of a store that has moved, set those of blocks 1 to n to 0.
 * Returns 0, or 1, 2, or 5 if a mark of blocks 1 to n is not 0, or the spare is not blank. */
uint32_t mover_hex_write(uint32_t n, uint32_t m, uint32_t page_bytes, const uint8_t *store, uint64_t store_len,
                         const uint8_t *marks, uint64_t marks_len, uint8_t *text, uint64_t text_len);

/* Checks the step listing of any mover, with any method: would its move, from rest, have kept every original through a power cut at any moment?
 * Each line ends with a line feed, has single spaces and decimal numbers without leading zeros, and steps are numbered from 0:
 *   STEP W BLOCK PAGE ORIGINAL..   writes the sum of these originals, one or more in rising order, to a blank page above those written in its
 *                                  block since the last erase
 *   STEP E BLOCK                   erases a block
 *   end WRITES ERASES              the last line
 * n * m is at most 64, and no page is dropped: an entry of MOVER_DROPPED is 3. The first faulty line decides, 13 before 14 before 15 on one line.
 *   *line      the number of the faulty line, from 1, with 13, 14 and 15
 *   *accepted  1 if no line is faulty, the end line is there and its counts are true, the spare is blank at the end, and every original lies, by
 *              itself, where the list sends it; else 0
 * Changes nothing.
 * Returns 0, or 1, 2, 3, 13, 14 or 15. */
uint32_t mover_check_listing(uint32_t n, uint32_t m, const uint8_t *list, uint64_t list_len, const uint8_t *text, uint64_t text_len,
                             uint32_t *line, uint32_t *accepted);

/* How many erases the papers' coding would spend with its blocks named in this order: n + *y + 1. That coding is not this library's, which takes 2 * n
 * whatever the order; it asks for large pages and for no block without a page to move. Places in the order are counted from 1. A value y is allowed if no
 * page goes from the j-th block to the i-th with y < i and i + 2 <= j; dropped pages are left out.
 *   *y     the least value allowed, 0 to n - 2
 *   *page  with *y above 0, the lowest original that rules out *y - 1; with 0 it is 0 and means nothing
 * Changes nothing.
 * Returns 0, or 1 for n or m, 16, 2, 3 or 17. */
uint32_t mover_least_y(uint32_t n, uint32_t m, const uint8_t *list, uint64_t list_len, const uint8_t *order, uint64_t order_len,
                       uint32_t *y, uint32_t *page);

/* The order with the least *y of all, and the first of these in dictionary order: that which has the smaller block where two first differ. What was in
 * `order` does not matter; it is filled. *y and *page are those of mover_least_y for it. All orders are tried, 5040 of 7 blocks.
 * Changes only `order`.
 * Returns 0, or 1 for n or m, 16, 2 or 3. */
uint32_t mover_best_order(uint32_t n, uint32_t m, const uint8_t *list, uint64_t list_len, uint8_t *order, uint64_t order_len,
                          uint32_t *y, uint32_t *page);

/* How long the lent parts are, in bytes. */
static inline uint64_t mover_list_bytes(uint32_t n, uint32_t m)
{
    return 2 * (uint64_t)n * m;
}

static inline uint64_t mover_pins_bytes(uint32_t n, uint32_t m)
{
    return (uint64_t)n * m;
}

static inline uint64_t mover_sets_bytes(uint32_t n, uint32_t m)
{
    return (uint64_t)n * m;
}

static inline uint64_t mover_order_bytes(uint32_t n)
{
    return n;
}

static inline uint64_t mover_marks_bytes(uint32_t n, uint32_t m)
{
    return ((uint64_t)n + 1) * m;
}

static inline uint64_t mover_store_bytes(uint32_t n, uint32_t m, uint32_t page_bytes)
{
    return mover_marks_bytes(n, m) * page_bytes;
}

static inline uint64_t mover_area_bytes(uint32_t n, uint32_t m, uint32_t page_bytes)
{
    return (uint64_t)n * m * page_bytes;
}

static inline uint64_t mover_flags_bytes(uint32_t n, uint32_t m)
{
    return (uint64_t)n * m;
}

/* A data record has 12 characters beside two for each byte, one of type 04 has 16, and the end record 12. */
static inline uint64_t mover_hex_bytes(uint32_t n, uint32_t m, uint32_t page_bytes)
{
    uint64_t bytes = mover_sets_bytes(n, m) * page_bytes;
    uint64_t records = (bytes + 15) / 16, spans = (bytes + 65535) / 65536;
    return 2 * bytes + 12 * records + 16 * (spans > 0 ? spans - 1 : 0) + 12;
}

/* The place after the last step. */
static inline uint32_t mover_last_place(uint32_t n, uint32_t m)
{
    return 2 * n * (m + 1);
}

/* The erases of the papers' coding with this y. */
static inline uint32_t mover_coded_erases(uint32_t n, uint32_t y)
{
    return n + y + 1;
}

/* Entry k of a list becomes `number`: original k is to go to page number % m of block number / m + 1, or nowhere if it is MOVER_DROPPED. */
static inline void mover_send(uint8_t *list, uint32_t k, uint32_t number)
{
    list[2 * (uint64_t)k] = (uint8_t)(number & 255);
    list[2 * (uint64_t)k + 1] = (uint8_t)(number >> 8 & 255);
}

/* Original k of a list is to be thrown away. */
static inline void mover_drop(uint8_t *list, uint32_t k)
{
    mover_send(list, k, MOVER_DROPPED);
}

/* How many erases a record has counted for a block, 0 to 64. */
static inline uint32_t mover_counter(const uint8_t *wear, uint32_t block)
{
    const uint8_t *counter = wear + 4 * (uint64_t)block;
    return counter[0] | (uint32_t)counter[1] << 8 | (uint32_t)counter[2] << 16 | (uint32_t)counter[3] << 24;
}

static inline void mover_set_counter(uint8_t *wear, uint32_t block, uint32_t count)
{
    int i;
    for (i = 0; i < 4; i++)
        wear[4 * (uint64_t)block + (uint64_t)i] = (uint8_t)(count >> 8 * i & 255);
}

/* The highest count of a record, and the lowest block that has it, without a look at the counters. */
static inline uint32_t mover_highest_count(const uint8_t *wear)
{
    return mover_counter(wear, MOVER_COUNTERS);
}

static inline uint32_t mover_highest_block(const uint8_t *wear)
{
    return wear[MOVER_WEAR_BYTES - 1];
}

/* The sizes and lent parts of a move, gathered once. Each part must have the length that the functions above give; the pins, n * m zeros
 * where no page is pinned, must not be NULL. With it a move, or the rest of one after a power cut, is
 *
 *     number = mover_split_move(&move);
 *     if (number == MOVER_DONE)
 *         number = mover_mend_move(&move, &at);
 *     if (number == MOVER_DONE)
 *         number = mover_run_move(&move, at.place, UINT32_MAX, wear_limit, &at);
 */
struct mover_move {
    uint32_t n, m, page_bytes, s;
    const uint8_t *list, *pins;
    uint8_t *sets, *store, *marks, *work, *wear;
};

/* How a call left the move: the place reached, and what it took. */
struct mover_state {
    uint32_t place, steps, writes, erases, finished, written_bytes, pages_read;
};

/* The step at a place. */
struct mover_step {
    uint32_t kind, block, page, mark;
};

/* 1 if no two parts of the move overlap, nor one of them and one of two parts more, of so many bytes, nor these two; else 0. A part that is
 * NULL overlaps none; sizes out of range are left for the call to refuse. */
static inline int mover_apart_from_both(const struct mover_move *move, const uint8_t *one, uint64_t one_len, const uint8_t *other,
                                        uint64_t other_len)
{
    const uint8_t *const part[9] = {move->list, move->pins, move->sets, move->store, move->marks, move->work, move->wear, one, other};
    const uint64_t bytes[9] = {mover_list_bytes(move->n, move->m), mover_pins_bytes(move->n, move->m),
                               mover_sets_bytes(move->n, move->m), mover_store_bytes(move->n, move->m, move->page_bytes),
                               mover_marks_bytes(move->n, move->m), move->page_bytes, MOVER_WEAR_BYTES, one_len, other_len};
    int i, j;
    if (move->n - 1 > 63 || move->m - 1 > 63 || move->page_bytes - 1 > 4095)
        return 1;
    for (i = 0; i < 9; i++)
        for (j = 0; j < 9; j++)
            if (i != j && part[i] && part[j] && (uintptr_t)part[i] <= (uintptr_t)part[j]
                && (uintptr_t)part[j] < (uintptr_t)part[i] + bytes[i])
                return 0;
    return 1;
}

/* The same with one part more, a text, and with none. */
static inline int mover_apart_from(const struct mover_move *move, const uint8_t *text, uint64_t text_len)
{
    return mover_apart_from_both(move, text, text_len, 0, 0);
}

static inline int mover_apart(const struct mover_move *move)
{
    return mover_apart_from(move, 0, 0);
}

static inline uint32_t mover_split_move(const struct mover_move *move)
{
    assert(mover_apart(move));
    return mover_split(move->n, move->m, move->page_bytes, move->s, move->list, mover_list_bytes(move->n, move->m), move->pins,
                       mover_pins_bytes(move->n, move->m), move->sets, mover_sets_bytes(move->n, move->m));
}

static inline uint32_t mover_run_move(const struct mover_move *move, uint32_t place, uint32_t budget, uint32_t wear_limit,
                                      struct mover_state *state)
{
    assert(mover_apart(move));
    return mover_run(move->n, move->m, move->page_bytes, move->s, move->list, mover_list_bytes(move->n, move->m), move->pins,
                     mover_pins_bytes(move->n, move->m), move->sets, mover_sets_bytes(move->n, move->m), move->store,
                     mover_store_bytes(move->n, move->m, move->page_bytes), move->marks, mover_marks_bytes(move->n, move->m),
                     move->work, move->page_bytes, move->wear, MOVER_WEAR_BYTES, place, budget, wear_limit, &state->place,
                     &state->steps, &state->writes, &state->erases, &state->finished, &state->written_bytes, &state->pages_read);
}

/* As mover_mend: sets place and erases, an erase being a step, and finished if the place is the last; it writes no page and reads none. */
static inline uint32_t mover_mend_move(const struct mover_move *move, struct mover_state *state)
{
    uint32_t number;
    assert(mover_apart(move));
    number = mover_mend(move->n, move->m, move->page_bytes, move->s, move->store,
                        mover_store_bytes(move->n, move->m, move->page_bytes), move->marks, mover_marks_bytes(move->n, move->m),
                        move->wear, MOVER_WEAR_BYTES, &state->place, &state->erases);
    state->steps = state->erases;
    state->writes = state->written_bytes = state->pages_read = 0;
    state->finished = number == MOVER_DONE && state->place == mover_last_place(move->n, move->m) ? 1 : 0;
    return number;
}

static inline uint32_t mover_read_move(const struct mover_move *move, uint32_t original, uint32_t *count, uint32_t *written_bytes)
{
    assert(mover_apart(move));
    return mover_read(move->n, move->m, move->page_bytes, move->s, move->list, mover_list_bytes(move->n, move->m), move->pins,
                      mover_pins_bytes(move->n, move->m), move->sets, mover_sets_bytes(move->n, move->m), move->store,
                      mover_store_bytes(move->n, move->m, move->page_bytes), move->marks, mover_marks_bytes(move->n, move->m),
                      move->work, move->page_bytes, original, count, written_bytes);
}

/* As mover_rebuild, into an area of mover_area_bytes and flags of mover_flags_bytes. The move's work page and record may be NULL here. */
static inline uint32_t mover_rebuild_move(const struct mover_move *move, uint8_t *area, uint8_t *flags, uint32_t slot)
{
    uint64_t area_len = mover_area_bytes(move->n, move->m, move->page_bytes), flags_len = mover_flags_bytes(move->n, move->m);
    assert(mover_apart_from_both(move, area, area_len, flags, flags_len));
    return mover_rebuild(move->n, move->m, move->page_bytes, move->s, move->list, mover_list_bytes(move->n, move->m), move->pins,
                         mover_pins_bytes(move->n, move->m), move->sets, mover_sets_bytes(move->n, move->m), move->store,
                         mover_store_bytes(move->n, move->m, move->page_bytes), move->marks, mover_marks_bytes(move->n, move->m), area,
                         area_len, flags, flags_len, slot);
}

/* As mover_hex_read, into the move's store and marks; the move's s has to be 0 from then on. */
static inline uint32_t mover_hex_read_move(const struct mover_move *move, const uint8_t *text, uint64_t text_len)
{
    assert(mover_apart_from(move, text, text_len));
    return mover_hex_read(move->n, move->m, move->page_bytes, text, text_len, move->store,
                          mover_store_bytes(move->n, move->m, move->page_bytes), move->marks, mover_marks_bytes(move->n, move->m));
}

/* As mover_hex_write, from the move's store and marks, into a text of mover_hex_bytes. */
static inline uint32_t mover_hex_write_move(const struct mover_move *move, uint8_t *text)
{
    uint64_t text_len = mover_hex_bytes(move->n, move->m, move->page_bytes);
    assert(mover_apart_from(move, text, text_len));
    return mover_hex_write(move->n, move->m, move->page_bytes, move->store, mover_store_bytes(move->n, move->m, move->page_bytes),
                           move->marks, mover_marks_bytes(move->n, move->m), text, text_len);
}

static inline uint32_t mover_step_of(const struct mover_move *move, uint32_t place, struct mover_step *step)
{
    return mover_operation(move->n, move->m, move->s, place, &step->kind, &step->block, &step->page, &step->mark);
}

#ifdef __cplusplus
}
#endif

#endif
