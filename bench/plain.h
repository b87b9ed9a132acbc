/* Plain C of the same method as the library's calls, with the same checks and the same answers, for the benchmark only. */
#ifndef PLAIN_H
#define PLAIN_H

#include <stddef.h>
#include <stdint.h>

#ifdef __cplusplus
extern "C" {
#endif

void plain_read(const uint8_t *src, size_t src_len, uint16_t *a, size_t a_len, uint16_t *b, size_t b_len, uint16_t *w, size_t w_len,
                uint64_t answer[8]);
void plain_order(uint32_t n, const uint16_t *a, size_t a_len, const uint16_t *b, size_t b_len, const uint16_t *w, size_t w_len,
                 uint16_t *order, size_t order_len, uint32_t *back, size_t back_len, uint64_t answer[8]);
void plain_kept(uint32_t n, const uint16_t *a, size_t a_len, const uint16_t *b, size_t b_len, const uint16_t *w, size_t w_len, uint32_t k,
                uint16_t *kept, size_t kept_len, uint64_t answer[8]);
void plain_least(uint32_t n, const uint16_t *a, size_t a_len, const uint16_t *b, size_t b_len, const uint16_t *w, size_t w_len,
                 uint64_t answer[8]);
void plain_summary(uint32_t n, const uint16_t *a, size_t a_len, const uint16_t *b, size_t b_len, const uint16_t *w, size_t w_len,
                   uint64_t answer[8]);
/* the order without a table: all rows are looked at again at each step */
void rescan_order(uint32_t n, const uint16_t *a, size_t a_len, const uint16_t *b, size_t b_len, const uint16_t *w, size_t w_len,
                  uint16_t *order, size_t order_len, uint32_t *back, size_t back_len, uint64_t answer[8]);

#ifdef __cplusplus
}
#endif
#endif
