/* Twins of the block check and of what rests on it, in the best C that is known: no byte waits for the one before it.
 * They answer as those of twins.h do. */
#ifndef BEST_TWIN_H
#define BEST_TWIN_H
#include <stddef.h>
#include <stdint.h>

void best_init(void);
uint16_t best_check(const uint8_t *s, size_t n);
int best_read_a(const uint8_t *s, size_t len, uint8_t *out, size_t out_len, size_t *n);
int best_write_a(const uint8_t *content, size_t n, uint8_t *out, size_t out_len);
#endif
