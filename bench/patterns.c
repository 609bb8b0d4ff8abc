/* Every pattern of one and of two wrong bytes behind the length byte, through the proposer for up to 16, for a word of
 * each size asked for: the written word comes out, and the received bytes stay. One word of a size is enough, in format
 * A where that has frames of this size: the code is linear, so that the values at the roots, from which a wrong byte is
 * told, are those of the wrong bytes alone, and but for the first refusals all goes by the size.
 * Then words of every size with 17 to 40 wrong bytes, some of them near another code word, some near a word that is one
 * but for a root: the received bytes stay, and the proposal is a code word with the same length byte and at most 16
 * other bytes, or what was received. It is the code word where the received word was made near one.
 *   patterns [FIRST LAST]    the sizes of frames for one and two wrong bytes, 15 to 30 if not given */
#include "../include/kusikhut.h"
#include "numbers.h"
#include <stdio.h>
#include <stdlib.h>
#include <string.h>

enum { LONGEST = 223, CHECKS = 32, HEADER = 2, BLOCK = LONGEST + CHECKS, RECEIVED = BLOCK + HEADER };

/* The most bytes that are mended, and that are wrong where there are more; words of each size with more. */
enum { MOST = 16, MANY = 40, MANY_EACH = 40 * (MANY - MOST) };

typedef uint8_t Filling(const uint8_t *, size_t, uint8_t *, size_t, uint64_t *);
static const struct {
    const char *name;
    Filling *write, *correct, *propose;
    size_t longest;
} formats[] = {
    {"A", kusikhut_write_a, kusikhut_correction_write_a, kusikhut_mending_propose_a, 196},
    {"B", kusikhut_write_b, kusikhut_correction_write_b, kusikhut_mending_propose_b, 218},
};
enum { SHORTEST = 10, FORMATS = sizeof formats / sizeof *formats };

/* A frame of `size` bytes with header and check bytes as it was written and as it was received, and its word, in which
 * no header stands: n bytes as they were written, and as they are proposed. */
typedef struct {
    Filling *propose;
    uint8_t written[RECEIVED], received[RECEIVED], word[BLOCK], proposed[BLOCK];
    size_t size, n;
} Case;

static unsigned long wrong_answers;
static uint32_t state = 20261115;

static uint32_t below(uint32_t n) { return next_number(&state) % n; }

static uint8_t not_zero(void) { return (uint8_t)(1 + below(255)); }

static void print_bytes(const char *name, const uint8_t *s, size_t n) {
    printf("%s ", name);
    for (size_t i = 0; i < n; i++) printf("%02X", s[i]);
    puts("");
}

/* The first is printed. */
static void count_wrong(const Case *c) {
    if (wrong_answers++ > 0) return;
    print_bytes("received", c->received, c->n + HEADER);
    print_bytes("proposed", c->proposed, c->n);
    print_bytes("written", c->word, c->n);
}

/* Where a byte of the word stands in what was received. */
static size_t in_received(const Case *c, size_t place) { return place < c->size ? place : place + HEADER; }

static void without_header(const Case *c, const uint8_t *received, uint8_t *word) {
    memcpy(word, received, c->size);
    memcpy(word + c->size, received + c->size + HEADER, CHECKS);
}

/* A frame with this many content bytes. */
static void another_case(int f, size_t content_len, Case *c) {
    uint8_t content[LONGEST], frame[LONGEST];
    uint64_t size[1], n[1];
    for (size_t i = 0; i < content_len; i++) content[i] = (uint8_t)below(256);
    memset(c, 0, sizeof *c);
    if (formats[f].write(content, content_len, frame, LONGEST, size) != 0 ||
        formats[f].correct(frame, size[0], c->written, RECEIVED, n) != 0) {
        puts("a frame was not written");
        exit(1);
    }
    c->propose = formats[f].propose;
    c->size = size[0];
    c->n = c->size + CHECKS;
    memcpy(c->received, c->written, RECEIVED);
    without_header(c, c->written, c->word);
}

/* Whether it is proposed, and what was received stays as it is known to be. The proposal begins with other bytes than
 * the word has, so that what is not written shows. */
static inline int proposes(Case *c, const uint8_t *known) {
    uint64_t results[1];
    for (size_t i = 0; i < c->n; i++) c->proposed[i] = (uint8_t)~c->word[i];
    return c->propose(c->received, c->n + HEADER, c->proposed, c->n, results) == 0 && results[0] == c->n &&
           memcmp(c->received, known, c->n + HEADER) == 0;
}

/* All errors at a place, each with what is wrong at others: the known bytes are the received ones without a call. */
static void every_error(Case *c, uint8_t *known, size_t place) {
    size_t at = in_received(c, place);
    for (unsigned error = 1; error < 256; error++) {
        c->received[at] = known[at] = (uint8_t)(c->written[at] ^ error);
        if (!proposes(c, known) || memcmp(c->proposed, c->word, c->n) != 0) count_wrong(c);
    }
    c->received[at] = known[at] = c->written[at];
}

static unsigned long every_one(Case *c) {
    uint8_t known[RECEIVED];
    memcpy(known, c->written, RECEIVED);
    for (size_t place = 1; place < c->n; place++) every_error(c, known, place);
    return 255 * (c->n - 1);
}

static unsigned long every_two(Case *c) {
    uint8_t known[RECEIVED];
    memcpy(known, c->written, RECEIVED);
    for (size_t place = 1; place < c->n; place++) {
        size_t at = in_received(c, place);
        for (unsigned error = 1; error < 256; error++) {
            c->received[at] = known[at] = (uint8_t)(c->written[at] ^ error);
            for (size_t other = place + 1; other < c->n; other++) every_error(c, known, other);
        }
        c->received[at] = known[at] = c->written[at];
    }
    return 255ul * 255 * (c->n - 1) * (c->n - 2) / 2;
}

static unsigned long one_and_two(size_t first, size_t last) {
    unsigned long all = 0;
    uint8_t done[LONGEST + 1] = {0};
    Case c;
    for (int f = 0; f < FORMATS; f++)
        for (size_t n = SHORTEST; n <= formats[f].longest; n++) {
            another_case(f, n, &c);
            if (c.size < first || c.size > last || done[c.size]++) continue;
            unsigned long before = wrong_answers, one = every_one(&c), two = every_two(&c);
            printf("format %s, %zu bytes: %lu patterns of one wrong byte and %lu of two, %lu not mended\n",
                   formats[f].name, c.size, one, two, wrong_answers - before);
            fflush(stdout);
            all += one + two;
        }
    return all;
}

/* Bit by bit, from nobody's tables. */
static uint8_t product(uint8_t x, uint8_t y) {
    unsigned sum = 0, moved = x;
    for (; y != 0; y >>= 1) {
        if (y & 1) sum ^= moved;
        moved = moved < 128 ? moved << 1 : moved << 1 ^ 0x187;
    }
    return (uint8_t)sum;
}

static uint8_t power(unsigned exponent) {
    uint8_t x = 1;
    for (; exponent > 0; exponent--) x = product(x, 2);
    return x;
}

/* alpha^(11 j) for j from 112 to 143. */
static uint8_t roots[CHECKS];

static void roots_init(void) {
    for (unsigned i = 0; i < CHECKS; i++) roots[i] = power(11 * (112 + i) % 255);
}

/* 0 at each of the roots. */
static int is_code_word(const uint8_t *word, size_t n) {
    for (unsigned k = 0; k < CHECKS; k++) {
        uint8_t value = 0;
        for (size_t i = 0; i < n; i++) value = product(value, roots[k]) ^ word[i];
        if (value != 0) return 0;
    }
    return 1;
}

static void make_wrong(Case *c, size_t place, uint8_t error) { c->received[in_received(c, place)] ^= error; }

/* Bytes of the word's first n, but not the length byte. */
static void make_any_wrong(Case *c, unsigned wrong, size_t n) {
    uint8_t taken[BLOCK] = {0};
    while (wrong > 0) {
        size_t place = 1 + below((uint32_t)n - 1);
        if (taken[place]++) continue;
        make_wrong(c, place, not_zero());
        wrong--;
    }
}

/* Wrong by so many of the bytes by which another word differs, one with another byte and so all check bytes other ones:
 * fewer than 17 are left that differ from that. It is the word to be proposed then, and the answer 1, unless that byte
 * is the length byte or one of the fill before it, which stay. */
static int make_near_another(Case *c, unsigned wrong) {
    uint8_t error[BLOCK] = {0}, places[1 + CHECKS];
    uint64_t results[1];
    uint32_t size = (uint32_t)c->size, fill = LONGEST - size;
    uint32_t at = below(4) ? fill + 1 + below(size - 1) : below(fill + 1);
    error[at] = not_zero();
    kusikhut_correction_check_bytes(error, LONGEST, error + LONGEST, CHECKS, results);
    places[0] = (uint8_t)at;
    for (size_t i = 0; i < CHECKS; i++) places[1 + i] = (uint8_t)(LONGEST + i);
    for (unsigned i = 0; i < wrong; i++) {
        unsigned k = i + below(1 + CHECKS - i);
        uint8_t place = places[k];
        places[k] = places[i];
        if (place > fill) make_wrong(c, place - fill, error[place]);
    }
    if (at <= fill) return 0;
    for (size_t i = 0; i < c->n; i++) c->word[i] ^= error[fill + i];
    return 1;
}

/* All check bytes wrong, by a word that is 0 at all roots but one, and so many bytes of the frame: if the word had only
 * the other roots, these would be mended. */
static void make_near_no_code_word(Case *c, unsigned wrong) {
    uint8_t error[CHECKS] = {not_zero()};
    unsigned left_out = below(CHECKS), degree = 0;
    for (unsigned k = 0; k < CHECKS; k++) {
        if (k == left_out) continue;
        for (unsigned i = ++degree; i > 0; i--) error[i] ^= product(error[i - 1], roots[k]);
    }
    for (size_t i = 0; i < CHECKS; i++) make_wrong(c, c->size + i, error[i]);
    make_any_wrong(c, wrong, c->size);
}

/* The proposal is a code word with the same length byte, near what was received, or just that. */
static int as_promised(const Case *c) {
    uint8_t word[BLOCK];
    unsigned differing = 0;
    without_header(c, c->received, word);
    for (size_t i = 0; i < c->n; i++) differing += word[i] != c->proposed[i];
    return differing == 0 ||
           (differing <= MOST && c->proposed[0] == word[0] && is_code_word(c->proposed, c->n));
}

static void many(Case *c, unsigned wrong) {
    uint8_t known[RECEIVED];
    int near = 0;
    if (wrong <= 1 + CHECKS && below(2)) near = make_near_another(c, wrong);
    else if (wrong >= CHECKS && below(2)) make_near_no_code_word(c, wrong - CHECKS);
    else make_any_wrong(c, wrong, c->n);
    memcpy(known, c->received, RECEIVED);
    if (!proposes(c, known) || !as_promised(c) || (near && memcmp(c->proposed, c->word, c->n) != 0)) count_wrong(c);
}

static unsigned long many_wrong(void) {
    unsigned long all = 0;
    Case c;
    for (int f = 0; f < FORMATS; f++)
        for (size_t n = SHORTEST; n <= formats[f].longest; n++)
            for (unsigned k = 0; k < MANY_EACH; k++, all++) {
                another_case(f, n, &c);
                many(&c, MOST + 1 + k % (MANY - MOST));
            }
    return all;
}

int main(int argc, char **argv) {
    size_t first = argc == 3 ? strtoul(argv[1], NULL, 10) : 15, last = argc == 3 ? strtoul(argv[2], NULL, 10) : 30;
    roots_init();
    unsigned long words = many_wrong();
    printf("17 to 40 wrong bytes in %lu words of all sizes: %lu not as promised\n", words, wrong_answers);
    fflush(stdout);
    unsigned long before = wrong_answers, patterns = one_and_two(first, last);
    printf("%lu patterns of one and two wrong bytes: %lu not mended\n", patterns, wrong_answers - before);
    return wrong_answers != 0;
}
