/* Compares the library with libfec, on words of every size, mostly random ones, some with few bytes that are not zero.
 * Check bytes are those of encode_rs_8; a written word with one wrong byte, and one with up to 16, is mended as
 * decode_rs_8 mends it; and what that makes of a word with more than one is taken with as many differing bytes as were
 * made wrong. Prints how many words there were, and the first that differs. */
#include "../include/kusikhut.h"
#include "numbers.h"
#include <fec.h>
#include <stdio.h>
#include <string.h>

enum { LONGEST = 223, CHECKS = 32, HEADER = 2, BLOCK = LONGEST + CHECKS, RECEIVED = BLOCK + HEADER };

/* Words of each size: for check bytes, for one wrong byte, for 1 to 16, and for 2 to 16, each as often. */
enum { EACH = 1000, ONE_EACH = 510, MOST_WRONG = 16, UP_TO_EACH = 50 * MOST_WRONG, SOME_EACH = 9 * (MOST_WRONG - 1) };

static uint32_t state = 20261115;

static uint32_t below(uint32_t n) { return next_number(&state) % n; }

static void another_word(uint8_t *word, size_t n, int sparse) {
    for (size_t i = 0; i < n; i++) word[i] = sparse && next_number(&state) % 32 ? 0 : (uint8_t)next_number(&state);
}

static void print_bytes(const char *name, const uint8_t *s, size_t n) {
    printf("%s ", name);
    for (size_t i = 0; i < n; i++) printf("%02X", s[i]);
    puts("");
}

/* Both outputs begin with bytes of their own, so that what is not written shows too. */
static int same(uint8_t *word, size_t n, uint8_t *ours, uint8_t *theirs) {
    uint64_t results[1];
    memset(ours, 0xAA, CHECKS);
    memset(theirs, 0x55, CHECKS);
    encode_rs_8(word, theirs, LONGEST - (int)n);
    return kusikhut_correction_check_bytes(word, n, ours, CHECKS, results) == 0 && results[0] == CHECKS &&
           memcmp(ours, theirs, CHECKS) == 0;
}

static unsigned long compare_check_bytes(void) {
    uint8_t word[LONGEST], ours[CHECKS], theirs[CHECKS];
    unsigned long words = 0, different = 0;
    for (size_t n = 0; n <= LONGEST; n++)
        for (int k = 0; k < EACH; k++) {
            another_word(word, n, k % 8 == 0);
            words++;
            if (same(word, n, ours, theirs)) continue;
            if (different++ > 0) continue;
            print_bytes("word", word, n);
            print_bytes("ours", ours, CHECKS);
            print_bytes("libfec", theirs, CHECKS);
        }
    printf("check bytes of %lu words, %d of each size from 0 to %d bytes: %lu differ from libfec's encode_rs_8\n",
           words, EACH, LONGEST, different);
    return different;
}

/* The calls of one format, and the longest content that correction bytes are written for. The shortest is 10. */
typedef uint8_t Filling(const uint8_t *, size_t, uint8_t *, size_t, uint64_t *);
typedef uint8_t Judging(const uint8_t *, size_t, const uint8_t *, size_t, uint64_t *);
static const struct {
    Filling *write, *correct, *propose_one, *propose;
    Judging *judge;
    size_t longest;
} formats[] = {
    {kusikhut_write_a, kusikhut_correction_write_a, kusikhut_mending_propose_one_a, kusikhut_mending_propose_a,
     kusikhut_mending_judge_a, 196},
    {kusikhut_write_b, kusikhut_correction_write_b, kusikhut_mending_propose_one_b, kusikhut_mending_propose_b,
     kusikhut_mending_judge_b, 218},
};
enum { SHORTEST = 10, FORMATS = sizeof formats / sizeof *formats };

/* What was received of a frame of `size` bytes, what libfec made of it, and what the library answered. */
typedef struct {
    uint8_t received[RECEIVED], theirs[BLOCK], ours[BLOCK];
    size_t size, ours_len;
} Case;

/* A written word with n content bytes; of size 0 if the library did not write it. The header is no part of the word:
 * any bytes stand there. */
static void another_case(int f, size_t n, Case *c) {
    uint8_t content[LONGEST], frame[LONGEST];
    uint64_t size[1], written[1];
    memset(c, 0, sizeof *c);
    another_word(content, n, below(8) == 0);
    if (formats[f].write(content, n, frame, LONGEST, size) != 0) return;
    if (formats[f].correct(frame, size[0], c->received, RECEIVED, written) != 0) return;
    c->size = size[0];
    another_word(c->received + c->size, HEADER, 0);
}

/* Makes the byte at this place of the word, in which no header stands, another one. */
static void make_wrong(Case *c, size_t place) {
    c->received[place < c->size ? place : place + HEADER] ^= (uint8_t)(1 + below(255));
}

/* How many bytes libfec says that it mended. */
static int mended_by_libfec(Case *c) {
    memcpy(c->theirs, c->received, c->size);
    memcpy(c->theirs + c->size, c->received + c->size + HEADER, CHECKS);
    return decode_rs_8(c->theirs, NULL, 0, LONGEST - (int)c->size);
}

/* The ends of frame and check bytes in turn, and any place, but never that of the length byte. */
static size_t place_for_one(int k, size_t size) {
    const size_t ends[] = {1, size - 1, size, size + CHECKS - 1};
    return k % 8 < 4 ? ends[k % 8] : 1 + below((uint32_t)size + CHECKS - 1);
}

static int same_proposal(Filling *propose, Case *c, int wrong) {
    uint64_t results[1];
    c->ours_len = c->size + CHECKS;
    return mended_by_libfec(c) == wrong &&
           propose(c->received, c->size + HEADER + CHECKS, c->ours, BLOCK, results) == 0 &&
           results[0] == c->ours_len && memcmp(c->ours, c->theirs, c->ours_len) == 0;
}

static int same_for_one(int f, int k, Case *c) {
    make_wrong(c, place_for_one(k, c->size));
    return same_proposal(formats[f].propose_one, c, 1);
}

/* At any places from the first on that may be wrong. */
static void make_some_wrong(Case *c, int wrong, size_t first) {
    uint8_t taken[BLOCK] = {0};
    while (wrong > 0) {
        size_t place = first + below((uint32_t)(c->size + CHECKS - first));
        if (taken[place]++) continue;
        make_wrong(c, place);
        wrong--;
    }
}

/* Never the length byte: no proposer mends it. */
static int same_for_up_to_16(int f, int k, Case *c) {
    int wrong = 1 + k % MOST_WRONG;
    make_some_wrong(c, wrong, 1);
    return same_proposal(formats[f].propose, c, wrong);
}

/* The length byte may be among them: a proposal is judged by its own. Ours are two bytes here, the answer and the
 * count. */
static int same_for_some(int f, int k, Case *c) {
    uint64_t results[1];
    int wrong = 2 + k % (MOST_WRONG - 1);
    make_some_wrong(c, wrong, 0);
    if (mended_by_libfec(c) != wrong) return 0;
    c->ours[0] = formats[f].judge(c->theirs, c->size + CHECKS, c->received, c->size + HEADER + CHECKS, results);
    c->ours[1] = (uint8_t)results[0];
    c->ours_len = 2;
    return c->ours[0] == 0 && results[0] == (uint64_t)wrong;
}

static unsigned long compare_written(int each, int (*same_for)(int, int, Case *), const char *wrong, const char *how) {
    unsigned long words = 0, different = 0;
    Case c;
    for (int f = 0; f < FORMATS; f++)
        for (size_t n = SHORTEST; n <= formats[f].longest; n++)
            for (int k = 0; k < each; k++) {
                another_case(f, n, &c);
                words++;
                if (c.size > 0 && same_for(f, k, &c)) continue;
                if (different++ > 0) continue;
                print_bytes("received", c.received, c.size + HEADER + CHECKS);
                print_bytes("ours", c.ours, c.ours_len);
                print_bytes("libfec", c.theirs, c.size + CHECKS);
            }
    printf("%s in %lu written words, %d of each size in formats A and B: %lu %s\n", wrong, words, each, different, how);
    return different;
}

int main(void) {
    unsigned long different = compare_check_bytes();
    different += compare_written(ONE_EACH, same_for_one, "one wrong byte", "mended otherwise than by decode_rs_8");
    different += compare_written(UP_TO_EACH, same_for_up_to_16, "1 to 16 wrong bytes",
                                 "mended otherwise than by decode_rs_8");
    different += compare_written(SOME_EACH, same_for_some, "2 to 16 wrong bytes",
                                 "not taken, as decode_rs_8 mended them, with as many differing");
    return different != 0;
}
