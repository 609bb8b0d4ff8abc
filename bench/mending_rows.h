/* The rows of the mending: judging, each call of the proposers for one wrong byte and for up to 16 and of their twins,
 * and libfec's decoder where it is installed. */
#ifndef MENDING_ROWS_H
#define MENDING_ROWS_H

/* Makes the words that all sides work on. */
void mending_prepare(void);
/* Whether both sides answer the same and leave the same bytes, on words that are right, damaged, cut off or too long,
 * with more or less room than they need; and whether the rows' words are judged and mended as the rows say. */
int mending_same(void);

void mending_judge_ours(void);
#define EACH_MENDING_ROW(row) \
    row(one255) row(one52) row(clean) row(propose0) row(propose1) row(propose8) row(propose16)
#define DECLARED_MENDING(name) void mending_##name##_ours(void); void mending_##name##_other(void);
EACH_MENDING_ROW(DECLARED_MENDING)
#ifdef LIBFEC
void mending_wrong0_libfec(void);
void mending_wrong1_libfec(void);
void mending_wrong8_libfec(void);
void mending_wrong16_libfec(void);
#endif
#endif
