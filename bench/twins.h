/* Plain C twins of the exported functions, for comparing speed alone: what a careful C programmer writes with one table
 * for each thing. best_twin.h has more of them for the check. */
#ifndef TWINS_H
#define TWINS_H
#include <stddef.h>
#include <stdint.h>

void twins_init(void);
uint16_t twin_check(const uint8_t *s, size_t n);
uint16_t twin_check_after(uint8_t *span, size_t n, size_t place, uint8_t byte);
int twin_search(const uint8_t *chips, size_t len, size_t start, size_t allowance, size_t *place, size_t *tried);
int twin_decode_three_of_six(const uint8_t *chips, size_t len, size_t start, size_t n, uint8_t *out);
int twin_word_nrz(const uint8_t *chips, size_t len, size_t at, uint8_t *value);
int twin_word_three_of_six(const uint8_t *chips, size_t len, size_t at, uint8_t *value);
int twin_word_manchester(const uint8_t *chips, size_t len, size_t at, uint8_t *value);
/* The size of a format A frame with n content bytes. */
size_t twin_size_a(size_t n);
/* 0, with the frame's size, or the frame's 1, 2 or 3, with the wrong block from 1. */
int twin_judge_a(const uint8_t *s, size_t len, size_t *size, size_t *wrong);
int twin_read_a(const uint8_t *s, size_t len, uint8_t *out, size_t out_len, size_t *n);
int twin_write_a(const uint8_t *content, size_t n, uint8_t *out, size_t out_len);
int twin_receive_t(const uint8_t *chips, size_t len, size_t start, size_t allowance, uint8_t *out, size_t out_len,
                   size_t *n);
#endif
