/* Twins of the correction's calls: the best C with logarithm tables that was found for the same contract. They answer
 * as the library does on every input, refusals and all; what each takes and answers stands in include/kusikhut.h. */
#ifndef CORRECTION_TWIN_H
#define CORRECTION_TWIN_H
#include <stddef.h>
#include <stdint.h>

void twin_correction_init(void);
uint8_t twin_correction_check_bytes(const uint8_t *word, size_t word_len, uint8_t *out, size_t out_len,
                                    uint64_t results[1]);
uint8_t twin_correction_write_a(const uint8_t *bytes, size_t bytes_len, uint8_t *out, size_t out_len,
                                uint64_t results[1]);
#endif
