/* Numbers that do not depend on the time: a small generator, from a start that its user keeps. */
#ifndef NUMBERS_H
#define NUMBERS_H
#include <stdint.h>

static inline uint32_t next_number(uint32_t *state) {
    *state ^= *state << 13;
    *state ^= *state >> 17;
    *state ^= *state << 5;
    return *state >> 8;
}
#endif
