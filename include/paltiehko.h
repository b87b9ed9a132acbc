/* Paltiehko: link lists, forest numbers and the least cable cut. Every function below is proved to answer as document 01 says, for every
   input; docs/NUMBERS.md has a page for each number. Link with crates/paltiehko/out/libpaltiehko.a, which `rt lib` makes in crates/paltiehko.

   Lists. Every list is a pointer and a length in places. A pointer is never null, also where the length is 0. A list of links is n nodes,
   numbered from 0, and three lists of one length: row r joins a[r] with b[r] by w[r] parallel cables. The lists that a call fills are
   lent; they must not overlap each other, the lists it reads or the answer: overlapping lists are the caller's fault, and nothing is
   promised of them.

   Answers. `answer` has eight places and is always written whole: the number, the place, then the call's fields as its comment gives
   them, then zeros. Number 0 is done. Any other number is a refusal: all places but the first two are 0 and no lent list has changed.
   After number 0 the places of a lent list past those that the call fills keep their contents.

   A list of links is refused, in this order, with
     9 at 0       n is 0 or over 128
    10 at 0       over 2,048 rows, or lists of unequal length
    14 at 0       a lent list is shorter than the call needs
    11 at a row   an end is n or more
    12 at a row   both ends are equal
    13 at a row   the weight is 0
    18 at 0       the weights add to over 4,294,967,295 (which no list within the limits does)
   and a call adds what its comment says. The first bad row decides, and in it the first of 11, 12, 13.

   No call keeps state, allocates or returns anything else; all may be called from several threads at once. */
#ifndef PALTIEHKO_H
#define PALTIEHKO_H

#include <stddef.h>
#include <stdint.h>

#ifdef __cplusplus
extern "C" {
#endif

/* Reads a file into three lent lists. Fields: n, rows. Room: one place per row in each list; 2,048 are always enough. Refuses the file's
   form first: 1 (under 8 or over 32,768 bytes), 2 (mark), 3 (start), then record by record 4, 5, 6, 7 at the record's offset, 7 at the
   trailer's offset (no kind 1 record), 8 (row count); then the list. */
void paltiehko_read(const uint8_t *src, size_t src_len,
                    uint16_t *a, size_t a_len, uint16_t *b, size_t b_len, uint16_t *w, size_t w_len,
                    uint64_t answer[8]);

/* Writes a list's file into lent bytes. Fields: size. Room: 12 + 8 x rows bytes. Refuses as above. */
void paltiehko_write(uint32_t n, const uint16_t *a, size_t a_len, const uint16_t *b, size_t b_len, const uint16_t *w, size_t w_len,
                     uint8_t *out, size_t out_len,
                     uint64_t answer[8]);

/* The max-back order from node 0, ties to the smallest number, and the back counts by position. Fields: none. Room: n places in each of
   the two lists. Refuses as above. */
void paltiehko_order(uint32_t n, const uint16_t *a, size_t a_len, const uint16_t *b, size_t b_len, const uint16_t *w, size_t w_len,
                     uint16_t *order, size_t order_len, uint32_t *back, size_t back_len,
                     uint64_t answer[8]);

/* The forest number of each row's first cable. Fields: none. Room: one place per row. Refuses as above. */
void paltiehko_forest(uint32_t n, const uint16_t *a, size_t a_len, const uint16_t *b, size_t b_len, const uint16_t *w, size_t w_len,
                      uint32_t *first, size_t first_len,
                      uint64_t answer[8]);

/* The weight that each row keeps when the list is thinned for k. Fields: none. Room: one place per row. Refuses as above, then 15 at 0
   where k is 0. */
void paltiehko_kept(uint32_t n, const uint16_t *a, size_t a_len, const uint16_t *b, size_t b_len, const uint16_t *w, size_t w_len,
                    uint32_t k,
                    uint16_t *kept, size_t kept_len,
                    uint64_t answer[8]);

/* The short list for k: the rows that keep something, in order, with their kept weights, on the same n nodes. Fields: the number of rows
   written. Room: one place per given row in each of the three lists. Refuses as above, then 15 at 0 where k is 0. */
void paltiehko_short(uint32_t n, const uint16_t *a, size_t a_len, const uint16_t *b, size_t b_len, const uint16_t *w, size_t w_len,
                     uint32_t k,
                     uint16_t *a2, size_t a2_len, uint16_t *b2, size_t b2_len, uint16_t *w2, size_t w2_len,
                     uint64_t answer[8]);

/* The least split. Fields: value, word 0, word 1, size: node i is in the side where bit i mod 64 of word i div 64 is set; node 0 never is.
   No division has fewer cables across. Room: none. Refuses as above (but 14), then 16 at 0 where n is 1. */
void paltiehko_least(uint32_t n, const uint16_t *a, size_t a_len, const uint16_t *b, size_t b_len, const uint16_t *w, size_t w_len,
                     uint64_t answer[8]);

/* Has some division fewer than k cables across? Fields: the least split's, as above, where its value is below k. Room: none. Refuses as
   above (but 14), then 15 at 0 where k is 0, 16 at 0 where n is 1, and 17 at 0 where every division has k or more. */
void paltiehko_fewer(uint32_t n, const uint16_t *a, size_t a_len, const uint16_t *b, size_t b_len, const uint16_t *w, size_t w_len,
                     uint32_t k,
                     uint64_t answer[8]);

/* The summary. Fields: n, rows, links (the sum of the weights), pairs (the different (a, b) as written). Room: none. Refuses as above
   (but 14). */
void paltiehko_summary(uint32_t n, const uint16_t *a, size_t a_len, const uint16_t *b, size_t b_len, const uint16_t *w, size_t w_len,
                       uint64_t answer[8]);

/* Writes the report of a file into lent bytes: exactly what the printing program prints, the line of a refused file too. Fields: the
   length of the text. Room: that length; 1,024 bytes are always enough. Refuses only 14 at 0, where the text does not fit. */
void paltiehko_report(const uint8_t *src, size_t src_len,
                      uint8_t *out, size_t out_len,
                      uint64_t answer[8]);

#ifdef __cplusplus
}
#endif
#endif
