/* The rows of the correction: each call of the library and of its twin, and libfec's where it is installed. */
#ifndef CORRECTION_ROWS_H
#define CORRECTION_ROWS_H

/* Makes the word and the frame that both sides work on. */
void correction_prepare(void);
/* Whether both sides answer the same and leave the same bytes, on words and frames that are right, damaged, cut off or
 * too long, with more or less room than they need. */
int correction_same(void);

#define EACH_CORRECTION_ROW(row) row(checks20) row(checks223) row(write)
#define DECLARED_CORRECTION(name) void correction_##name##_ours(void); void correction_##name##_other(void);
EACH_CORRECTION_ROW(DECLARED_CORRECTION)
#ifdef LIBFEC
void correction_checks20_libfec(void);
void correction_checks223_libfec(void);
#endif
#endif
