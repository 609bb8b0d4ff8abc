/* Twins of the calls that propose a word with up to 16 wrong bytes mended: the best C that was found for the same
 * contract. They answer as the library does on every input, refusals and all; what each takes and answers stands in
 * include/kusikhut.h. */
#ifndef SIXTEEN_TWIN_H
#define SIXTEEN_TWIN_H
#include <stddef.h>
#include <stdint.h>

void twin_sixteen_init(void);
uint8_t twin_mending_propose_a(const uint8_t *received, size_t received_len, uint8_t *out, size_t out_len,
                               uint64_t results[1]);
uint8_t twin_mending_propose_b(const uint8_t *received, size_t received_len, uint8_t *out, size_t out_len,
                               uint64_t results[1]);
#endif
