/* Frames in format A over a check that is given: what the plain twin and the best one share, so that they differ in the
 * check alone. All of it is inlined, so that gcc sees blocks of 10 and of 16 bytes: it unrolls the loop over such a
 * block and copies it in a few words. Answers are document 01's numbers. */
#ifndef BLOCKS_H
#define BLOCKS_H
#include <stddef.h>
#include <stdint.h>
#include <string.h>

#define INLINED static inline __attribute__((always_inline))

typedef uint16_t Check(const uint8_t *s, size_t n);

/* With its check, the first block has 12 bytes and each later one 18; the last one may have less. */
enum { FIRST_BLOCK = 12, BLOCK = 18 };

/* The size of a frame with n content bytes. */
INLINED size_t size_a(size_t n) { return n + 3 + 2 * ((n - 9 + 15) / 16); }

/* Whether the check behind n bytes is theirs. */
INLINED int sealed(Check *check, const uint8_t *s, size_t n) { return check(s, n) == (s[n] << 8 | s[n + 1]); }

INLINED int wrong_at(size_t at, size_t *wrong) {
    *wrong = (at + BLOCK - FIRST_BLOCK) / BLOCK + 1;
    return 3;
}

INLINED int judge_a(Check *check, const uint8_t *s, size_t len, size_t *size, size_t *wrong) {
    if (len == 0) return 1;
    if (s[0] < 10) return 2;
    size_t end = size_a(s[0]), at = FIRST_BLOCK;
    *size = end;
    if (len < end) return 1;
    if (!sealed(check, s, 10)) return wrong_at(0, wrong);
    for (; at + BLOCK <= end; at += BLOCK)
        if (!sealed(check, s + at, 16)) return wrong_at(at, wrong);
    if (at < end && !sealed(check, s + at, end - at - 2)) return wrong_at(at, wrong);
    return 0;
}

/* All blocks are judged before the first is copied: a frame that is refused leaves nothing in out. */
INLINED int read_a(Check *check, const uint8_t *s, size_t len, uint8_t *out, size_t out_len, size_t *n) {
    size_t size, wrong, done = 9;
    int refused = judge_a(check, s, len, &size, &wrong);
    if (refused) return refused;
    size_t l = s[0];
    if (out_len < l) return 4;
    memcpy(out, s + 1, 9);
    for (s += FIRST_BLOCK; done + 16 <= l; done += 16, s += BLOCK) memcpy(out + done, s, 16);
    memcpy(out + done, s, l - done);
    *n = l;
    return 0;
}

/* The check is made of the bytes where they come from. Read back from out, they wait for what was written there before,
 * the last block's check among it: the blocks then follow each other where they can run side by side, and a write takes
 * twice as long. */
INLINED void put_block(Check *check, const uint8_t *s, size_t n, uint8_t *out) {
    uint16_t c = check(s, n);
    memcpy(out, s, n);
    out[n] = (uint8_t)(c >> 8);
    out[n + 1] = (uint8_t)c;
}

INLINED int write_a(Check *check, const uint8_t *content, size_t n, uint8_t *out, size_t out_len) {
    if (n < 10 || n > 255) return 5;
    if (out_len < size_a(n)) return 4;
    uint8_t first[10] = {(uint8_t)n};
    memcpy(first + 1, content, 9);
    put_block(check, first, 10, out);
    size_t done = 9;
    for (out += FIRST_BLOCK; done + 16 <= n; done += 16, out += BLOCK) put_block(check, content + done, 16, out);
    if (done < n) put_block(check, content + done, n - done, out);
    return 0;
}
#endif
