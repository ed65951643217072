/*
 * The functions that the static libraries export. docs/C.md tells how they are built and linked, and what each does.
 *
 * A slice is a pointer and a length, and the length counts elements, not bytes. The caller owes for every slice: the
 * pointer is not null (not even where the length is 0), is aligned for its elements, and leads to so many of them; and
 * the slices and the count of one call do not overlap. Nothing is allocated, and nothing is kept from call to call.
 */
#ifndef ZIBDALK_H
#define ZIBDALK_H

#include <stddef.h>
#include <stdint.h>

#ifdef __cplusplus
extern "C" {
#endif

/* The cells that a run of n keys, w workers, a vertex rows and b edge rows of each worker needs. */
#define ZIBDALK_CELLS(n, w, a, b)                                                                          \
    (1 + (size_t)(n) + (size_t)(n) * (n) + 3 * (size_t)(w) * (a) + 6 * (size_t)(w) * (b) +                 \
     (size_t)(w) * ((size_t)(n) + (size_t)(n) * (n)))

/* The bytes of one reply line with its line feed: at most ZIBDALK_REPLY, but for a page of n keys. */
#define ZIBDALK_REPLY ((size_t)7)
#define ZIBDALK_PAGE_REPLY(n) (2 * (2 + (size_t)(n) + 4 * (size_t)(n) * (n)) + 1)

/*
 * Replies to the lines of a text, over a memory of 32-bit words, one word a cell (libreplay_words.a).
 * Answers how many bytes of `out` were written: whole reply lines, each with its line feed. A line whose reply does not
 * fit ends the replay and is not carried out. No run is open when the call begins.
 */
size_t zibdalk_words(uint32_t *words, size_t words_len,
                     const uint8_t *text, size_t text_len,
                     uint8_t *out, size_t out_len);

/* The same over a byte image, four bytes a cell, highest byte first (libreplay_image.a). Up to three bytes left over at
   the end are never changed. */
size_t zibdalk_image(uint8_t *bytes, size_t bytes_len,
                     const uint8_t *text, size_t text_len,
                     uint8_t *out, size_t out_len);

/* The best value of a key: mark 1 and the value where a walk reaches the key, 0 and 0 where none does. */
struct questions_entry {
    uint8_t mark;
    uint32_t value;
};

/* Why a question has no answer. Each function below answers 0, or the first of these that holds, and then changes nothing. */
#define QUESTIONS_NO_PAGE ((uint8_t)0xE1)     /* keys is not 1 to 64, or cells_len is not keys + keys * keys */
#define QUESTIONS_KEY_OUTSIDE ((uint8_t)0xE6) /* start is keys or more */
#define QUESTIONS_AREA_SMALL ((uint8_t)0xEC)  /* out_len is less than keys */
#define QUESTIONS_ABSENT ((uint8_t)0x13)      /* the page does not show the start */

/*
 * Questions to a page of `keys` keys, of keys + keys * keys cells (libquestions_c.a).
 * questions_order writes the keys that walks from `start` reach to the front of `out`, breadth first, and their number to
 * `count`; the other bytes stay. Where it does not answer 0 the count stays too.
 */
uint8_t questions_order(const uint32_t *cells, size_t cells_len, size_t keys, size_t start,
                        uint8_t *out, size_t out_len, size_t *count);

/* The least total weight of a walk from `start` to each key, in entries 0 to keys - 1; entries behind them stay. */
uint8_t questions_total(const uint32_t *cells, size_t cells_len, size_t keys, size_t start,
                        struct questions_entry *out, size_t out_len);

/* The greatest weight that the weakest edge of a walk from `start` to each key can have, in the same way. */
uint8_t questions_weakest(const uint32_t *cells, size_t cells_len, size_t keys, size_t start,
                          struct questions_entry *out, size_t out_len);

#ifdef __cplusplus
}
#endif

#endif
