/* Twins of the store's calls: the best C that was found for the same contract. They answer as the library does on every
 * input, refusals and all; what each takes and answers stands in include/kusikhut.h. */
#ifndef STORE_TWIN_H
#define STORE_TWIN_H
#include <stddef.h>
#include <stdint.h>

uint8_t twin_store_empty(uint8_t *store, size_t store_len, uint64_t results[1]);
uint8_t twin_store_add(uint8_t *store, size_t store_len, const uint8_t meter[8], uint8_t mode, uint8_t format,
                       uint64_t results[1]);
uint8_t twin_store_hear(uint8_t *store, size_t store_len, const uint8_t meter[8], uint32_t number, uint64_t results[1]);
uint8_t twin_store_issue(uint8_t *store, size_t store_len, const uint8_t meter[8], uint64_t results[1]);
uint8_t twin_store_restore(uint8_t *store, size_t store_len, const uint8_t *file, size_t file_len, uint64_t results[1]);
uint8_t twin_store_write(const uint8_t *store, size_t store_len, uint8_t *out, size_t out_len, uint64_t results[1]);
uint8_t twin_store_look_up(const uint8_t *store, size_t store_len, const uint8_t meter[8], uint64_t results[4]);
uint8_t twin_store_allowance(const uint8_t *store, size_t store_len, uint64_t results[1]);
uint8_t twin_store_set_allowance(uint8_t *store, size_t store_len, uint32_t allowance, uint64_t results[1]);
#endif
