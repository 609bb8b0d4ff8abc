/* The rows of the settings store: each call of the library and of its twin on a memory of its own, with the same meters. */
#ifndef STORE_ROWS_H
#define STORE_ROWS_H
#include <stddef.h>

/* Makes the meters and the memories of both sides: so many meters, at most 64. */
void store_sized(size_t meters);
/* The same, where all 64 addresses leave the same rest by the number of slots in the library's table. */
void store_hostile(void);
/* Whether both sides answer the same and leave the same bytes, on right and on malformed memories and files. */
int store_same(void);

#define EACH_STORE_ROW(row) \
    row(add) row(add_new) row(hear) row(issue) row(look_up) row(allowance) row(set_allowance) row(write) row(restore) \
    row(restore_new) row(empty)
#define DECLARED(name) void store_##name##_ours(void); void store_##name##_other(void);
EACH_STORE_ROW(DECLARED)
#endif
