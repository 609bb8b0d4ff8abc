/* The exported functions against C twins, in one interleaved run: each round times both one after the other on the same
 * input, and the medians over all rounds are compared. Buffers are warm and not cleared between calls.
 *   bench                          the table, and growth at five sizes
 *   bench names                    the rows' names, each with the ratio of instructions to reach, if there is one
 *   bench count NAME SIDE TIMES    so many calls of one side, ours or other, for bench/run to count instructions */
#define _POSIX_C_SOURCE 199309L
#include "../include/kusikhut.h"
#include "best_twin.h"
#include "correction_rows.h"
#include "mending_rows.h"
#include "numbers.h"
#include "store_rows.h"
#include "twins.h"
#include "twins_agree.h"
#include <stdio.h>
#include <stdlib.h>
#include <string.h>
#include <time.h>

enum { ROUNDS = 401, CONTENT = 255, FRAME = 290, WORDS = 100 };

static uint8_t noise[1024], content[CONTENT], frame[FRAME], frame_twin[FRAME], chips[1024], out[FRAME], span[128];
static size_t chips_len, sized = 1024;
static volatile uint64_t sink;
static uint64_t r[7];
static size_t a, b;

static uint32_t state = 20261115;
static uint8_t next_byte(void) { return (uint8_t)(next_number(&state) >> 3); }

/* Kept apart, so that no call is optimised away or mixed with another. */
#define NOINLINE static __attribute__((noinline))
NOINLINE void check6_ours(void) { sink += kusikhut_check(span, 6); }
NOINLINE void check6_other(void) { sink += twin_check(span, 6); }
NOINLINE void check10_ours(void) { sink += kusikhut_check(span, 10); }
NOINLINE void check10_other(void) { sink += twin_check(span, 10); }
NOINLINE void check16_ours(void) { sink += kusikhut_check(span, 16); }
NOINLINE void check16_other(void) { sink += twin_check(span, 16); }
NOINLINE void check16_best(void) { sink += best_check(span, 16); }
NOINLINE void check128_ours(void) { sink += kusikhut_check(span, 128); }
NOINLINE void check128_other(void) { sink += twin_check(span, 128); }
NOINLINE void check128_best(void) { sink += best_check(span, 128); }
NOINLINE void search_ours(void) { sink += kusikhut_search(noise, sized, 0, 8192, r); }
NOINLINE void search_other(void) { sink += (uint64_t)twin_search(noise, sized, 0, 8192, &a, &b); }
NOINLINE void receive_ours(void) { sink += kusikhut_receive(chips, chips_len, 0, 8192, out, sizeof out, r); }
NOINLINE void receive_other(void) { sink += (uint64_t)twin_receive_t(chips, chips_len, 0, 8192, out, sizeof out, &a); }
/* Words one by one, as somebody reads who does not know yet how many there are. */
#define EACH_WORD for (size_t i = 0; i < WORDS; i++)
NOINLINE void words6_ours(void) { EACH_WORD sink += kusikhut_word_three_of_six(chips, chips_len, 16 + 6 * i, r); }
NOINLINE void words6_other(void) {
    EACH_WORD sink += (uint64_t)twin_word_three_of_six(chips, chips_len, 16 + 6 * i, out);
}
NOINLINE void words8_ours(void) { EACH_WORD sink += kusikhut_word_nrz(noise, sized, 3 + 8 * i, r); }
NOINLINE void words8_other(void) { EACH_WORD sink += (uint64_t)twin_word_nrz(noise, sized, 3 + 8 * i, out); }
NOINLINE void words2_ours(void) { EACH_WORD sink += kusikhut_word_manchester(noise, sized, 2 * i, r); }
NOINLINE void words2_other(void) { EACH_WORD sink += (uint64_t)twin_word_manchester(noise, sized, 2 * i, out); }
NOINLINE void read_ours(void) { sink += kusikhut_read_a(frame, sizeof frame, out, sizeof out, r); }
NOINLINE void read_other(void) { sink += (uint64_t)twin_read_a(frame, sizeof frame, out, sizeof out, &a); }
NOINLINE void read_best(void) { sink += (uint64_t)best_read_a(frame, sizeof frame, out, sizeof out, &a); }
NOINLINE void write_ours(void) { sink += kusikhut_write_a(content, sizeof content, frame_twin, FRAME, r); }
NOINLINE void write_other(void) { sink += (uint64_t)twin_write_a(content, sizeof content, frame_twin, FRAME); }
NOINLINE void write_best(void) { sink += (uint64_t)best_write_a(content, sizeof content, frame_twin, FRAME); }
NOINLINE void change_ours(void) { sink += kusikhut_change_a(frame, sizeof frame, 100, (uint8_t)sink, r); }
NOINLINE void change_other(void) { sink += kusikhut_read_a(frame, sizeof frame, out, sizeof out, r); }
NOINLINE void update_ours(void) { sink += kusikhut_update(0x1234, 1, (uint8_t)sink, 125, r); }
NOINLINE void update_other(void) { sink += twin_check_after(span, 126, 0, (uint8_t)sink); }

typedef void (*Call)(void);
#define AGAINST_TABLE "C, table of 256"
#define AGAINST_BEST "best C known"
#define AGAINST_STORE "C: one pass, in place"
#define AGAINST_LOGS "C, logarithm tables"
#define AGAINST_BYTES "C, byte tables, divides once"
#define AGAINST_VECTORS "C, 16 bytes at a time"
#define NO_TARGET 0 /* measured for information */
static const struct {
    const char *name, *ours, *against;
    Call first, second;
    double most;
} rows[] = {
    {"check6", "check of 6 bytes", AGAINST_TABLE, check6_ours, check6_other, NO_TARGET},
    {"check10", "check of 10 bytes", AGAINST_TABLE, check10_ours, check10_other, NO_TARGET},
    {"check16", "check of 16 bytes", AGAINST_TABLE, check16_ours, check16_other, 0.55},
    {"check16_best", "check of 16 bytes", AGAINST_BEST, check16_ours, check16_best, NO_TARGET},
    {"check128", "check of 128 bytes", AGAINST_TABLE, check128_ours, check128_other, 0.28},
    {"check128_best", "check of 128 bytes", AGAINST_BEST, check128_ours, check128_best, NO_TARGET},
    {"receive", "receive a 290-byte T frame", "C: rolling search, 64-entry decoder, table check", receive_ours,
     receive_other, 1.0},
    {"search", "search 8,192 chips, no match", "C, rolling register", search_ours, search_other, 0.5},
    {"words6", "100 three-of-six words, one by one", "C, table of 64", words6_ours, words6_other, 1.2},
    {"words8", "100 NRZ words, one by one", "C", words8_ours, words8_other, 1.2},
    {"words2", "100 Manchester words, one by one", "C", words2_ours, words2_other, 1.2},
    {"read", "read a 290-byte A frame", AGAINST_TABLE, read_ours, read_other, 0.65},
    {"read_best", "read a 290-byte A frame", AGAINST_BEST, read_ours, read_best, NO_TARGET},
    {"write", "write a 290-byte A frame", AGAINST_TABLE, write_ours, write_other, 0.65},
    {"write_best", "write a 290-byte A frame", AGAINST_BEST, write_ours, write_best, NO_TARGET},
    {"change", "change a byte of it", "our own read", change_ours, change_other, 1.0},
    {"update", "check update at distance 125", "C, 126-byte check anew", update_ours, update_other, 0.5},
    {"add", "64 meters: add one that is held", AGAINST_STORE, store_add_ours, store_add_other, 2.0},
    {"add_new", "64 meters: add the last", AGAINST_STORE, store_add_new_ours, store_add_new_other, 2.0},
    {"hear", "64 meters: hear a number", AGAINST_STORE, store_hear_ours, store_hear_other, 2.0},
    {"issue", "64 meters: issue a number", AGAINST_STORE, store_issue_ours, store_issue_other, 2.0},
    {"look_up", "64 meters: look one up", AGAINST_STORE, store_look_up_ours, store_look_up_other, 2.0},
    {"allowance", "64 meters: the allowance", AGAINST_STORE, store_allowance_ours, store_allowance_other, 2.0},
    {"set_allowance", "64 meters: set the allowance", AGAINST_STORE, store_set_allowance_ours,
     store_set_allowance_other, 2.0},
    {"write_store", "64 meters: write the file", AGAINST_STORE, store_write_ours, store_write_other, 2.0},
    {"restore", "64 meters: restore into the same", AGAINST_STORE, store_restore_ours, store_restore_other, 2.0},
    {"restore_new", "64 meters: restore into an empty store", AGAINST_STORE, store_restore_new_ours,
     store_restore_new_other, 2.0},
    {"empty", "an empty store", AGAINST_STORE, store_empty_ours, store_empty_other, 2.0},
    {"checks20", "check bytes of 20", AGAINST_LOGS, correction_checks20_ours, correction_checks20_other, 0.9},
    {"checks223", "check bytes of 223", AGAINST_LOGS, correction_checks223_ours, correction_checks223_other, 0.8},
    {"correct", "correction of a 223-byte A frame", "C, table check and logarithms", correction_write_ours,
     correction_write_other, 1.0},
    {"judge", "judge a 255-byte code word", "our own check bytes of 223", mending_judge_ours, correction_checks223_ours,
     1.2},
    {"mend255", "mend one wrong byte of 255", AGAINST_BYTES, mending_one255_ours, mending_one255_other, NO_TARGET},
    {"mend52", "mend one wrong byte of 52", AGAINST_BYTES, mending_one52_ours, mending_one52_other, NO_TARGET},
    {"mend_clean", "nothing to mend in 255", AGAINST_BYTES, mending_clean_ours, mending_clean_other, NO_TARGET},
    {"propose0", "mend up to 16 of 255: none wrong", AGAINST_VECTORS, mending_propose0_ours, mending_propose0_other,
     NO_TARGET},
    {"propose1", "mend up to 16 of 255: one wrong", AGAINST_VECTORS, mending_propose1_ours, mending_propose1_other,
     NO_TARGET},
    {"propose8", "mend up to 16 of 255: 8 wrong", AGAINST_VECTORS, mending_propose8_ours, mending_propose8_other,
     NO_TARGET},
    {"propose16", "mend up to 16 of 255: 16 wrong", AGAINST_VECTORS, mending_propose16_ours, mending_propose16_other,
     NO_TARGET},
#ifdef LIBFEC
    {"libfec20", "check bytes of 20", "libfec", correction_checks20_ours, correction_checks20_libfec, 0.22},
    {"libfec223", "check bytes of 223", "libfec", correction_checks223_ours, correction_checks223_libfec, 0.20},
    {"libfec_mend", "mend one wrong byte of 255", "libfec", mending_one255_ours, mending_wrong1_libfec, 0.5},
    {"libfec_propose0", "mend up to 16 of 255: none wrong", "libfec", mending_propose0_ours, mending_wrong0_libfec,
     NO_TARGET},
    {"libfec_propose1", "mend up to 16 of 255: one wrong", "libfec", mending_propose1_ours, mending_wrong1_libfec,
     NO_TARGET},
    {"libfec_propose8", "mend up to 16 of 255: 8 wrong", "libfec", mending_propose8_ours, mending_wrong8_libfec,
     NO_TARGET},
    {"libfec_propose16", "mend up to 16 of 255: 16 wrong", "libfec", mending_propose16_ours, mending_wrong16_libfec,
     NO_TARGET},
#endif
};
enum { ROWS = sizeof rows / sizeof *rows };

/* What is to be reached in instructions, which bench/run counts, and not in time. */
static const struct {
    const char *name;
    double most;
} in_instructions[] = {
    {"libfec_propose0", 0.10},
    {"libfec_propose1", 0.25},
    {"libfec_propose8", 0.35},
    {"libfec_propose16", 0.45},
};

static double now(void) {
    struct timespec t;
    clock_gettime(CLOCK_MONOTONIC, &t);
    return (double)t.tv_sec * 1e9 + (double)t.tv_nsec;
}

static double timed(Call call, int times) {
    double from = now();
    for (int i = 0; i < times; i++) call();
    return (now() - from) / times;
}

static int ascending(const void *x, const void *y) {
    double d = *(const double *)x - *(const double *)y;
    return (d > 0) - (d < 0);
}

static void medians(Call first, Call second, double *m1, double *m2) {
    static double t1[ROUNDS], t2[ROUNDS];
    double once = timed(first, 64);
    int times = once < 50 ? 2000 : once < 1000 ? 200 : 20;
    for (int i = 0; i < ROUNDS; i++) {
        t1[i] = timed(first, times);
        t2[i] = timed(second, times);
    }
    qsort(t1, ROUNDS, sizeof *t1, ascending);
    qsort(t2, ROUNDS, sizeof *t2, ascending);
    *m1 = t1[ROUNDS / 2];
    *m2 = t2[ROUNDS / 2];
}

static void prepare(void) {
    twins_init();
    best_init();
    for (size_t i = 0; i < sizeof noise; i++) noise[i] = next_byte();
    for (size_t i = 0; i < sizeof span; i++) span[i] = next_byte();
    for (size_t i = 0; i < sizeof content; i++) content[i] = next_byte();
    /* Wherever the sync word stands in the noise, a byte of it is turned, until it stands nowhere. */
    for (size_t p, t; twin_search(noise, sizeof noise, 0, 8192, &p, &t) == 0;) noise[p / 8] ^= 0xFF;
    if (kusikhut_write_a(content, sizeof content, frame, sizeof frame, r) != 0) exit(1);
    if (kusikhut_send_t_a(content, sizeof content, chips, sizeof chips, r) != 0) exit(1);
    chips_len = r[0];
    store_sized(64);
    correction_prepare();
    mending_prepare();
}

static int same_word(uint8_t (*first)(const uint8_t *, size_t, size_t, uint64_t *),
                     int (*second)(const uint8_t *, size_t, size_t, uint8_t *), size_t at) {
    uint8_t value = 0;
    int answer = first(noise, sizeof noise, at, r);
    return answer == second(noise, sizeof noise, at, &value) && (answer != 0 || r[0] == value);
}

/* Both sides must do the same work, or their times say nothing. */
static int same_answers(void) {
    uint8_t ours[FRAME] = {0}, twins[FRAME] = {0};
    size_t n = 0, p = 0, t = 0;
    if (kusikhut_receive(chips, chips_len, 0, 8192, ours, FRAME, r) != 0) return 0;
    if (twin_receive_t(chips, chips_len, 0, 8192, twins, FRAME, &n) != 0 || n != r[4]) return 0;
    if (memcmp(ours, twins, FRAME) != 0) return 0;
    for (size_t i = 0; i <= 8 * sizeof noise + 1; i++)
        if (!same_word(kusikhut_word_three_of_six, twin_word_three_of_six, i) ||
            !same_word(kusikhut_word_nrz, twin_word_nrz, i) ||
            !same_word(kusikhut_word_manchester, twin_word_manchester, i))
            return 0;
    if (kusikhut_search(noise, 1024, 0, 8192, r) != 7 || twin_search(noise, 1024, 0, 8192, &p, &t) != 7) return 0;
    return r[1] == t;
}

/* A call of the store at five sizes, and where 64 addresses fall on one slot of the library's table: every meter is
 * compared with all before it then. Still right, and slower; the twin's table is another, which they do not hurt. */
static void store_growth(const char *name, Call first, Call second) {
    double m, twin;
    printf("\n| %s, meters | ns | ns a meter |\n|---|---|---|\n", name);
    for (size_t n = 4; n <= 64; n *= 2) {
        store_sized(n);
        medians(first, first, &m, &twin);
        printf("| %zu | %.0f | %.2f |\n", n, m, m / (double)n);
    }
    store_hostile();
    medians(first, second, &m, &twin);
    printf("| 64 in one slot | %.0f (C %.0f) | %.2f |\n", m, twin, m / 64);
    store_sized(64);
}

static void growth(void) {
    printf("\n| search, chips tried | ns | ns a chip |\n|---|---|---|\n");
    for (sized = 64; sized <= 1024; sized *= 2) {
        double m, unused;
        medians(search_ours, search_ours, &m, &unused);
        printf("| %zu | %.0f | %.3f |\n", 8 * sized - 15, m, m / (double)(8 * sized - 15));
    }
    printf("\n| receive, content bytes | ns | ns a byte |\n|---|---|---|\n");
    for (size_t n = 15; n <= 255; n += 60) {
        double m, unused;
        if (kusikhut_send_t_a(content, n, chips, sizeof chips, r) != 0) exit(1);
        chips_len = r[0];
        medians(receive_ours, receive_ours, &m, &unused);
        printf("| %zu | %.0f | %.2f |\n", n, m, m / (double)n);
    }
    store_growth("hear", store_hear_ours, store_hear_other);
    store_growth("restore into the same", store_restore_ours, store_restore_other);
    store_growth("restore into an empty store", store_restore_new_ours, store_restore_new_other);
}

static void print_name(const char *name) {
    printf("%s", name);
    for (size_t i = 0; i < sizeof in_instructions / sizeof *in_instructions; i++)
        if (strcmp(name, in_instructions[i].name) == 0) printf(" %.2f", in_instructions[i].most);
    puts("");
}

int main(int argc, char **argv) {
    prepare();
    if (!same_answers() || (argc == 1 && !(twins_agree() && store_same() && correction_same() && mending_same()))) {
        puts("the twins answer otherwise: nothing was measured");
        return 1;
    }
    for (size_t i = 0; argc == 2 && i < ROWS; i++) print_name(rows[i].name);
    if (argc == 2) return 0;
    for (size_t i = 0; argc == 5 && i < ROWS; i++)
        if (strcmp(argv[2], rows[i].name) == 0) {
            Call call = strcmp(argv[3], "ours") == 0 ? rows[i].first : rows[i].second;
            for (int k = atoi(argv[4]); k > 0; k--) call();
            return 0;
        }
    printf("| ours | against | ours, ns | other, ns | ratio | to reach | |\n|---|---|---|---|---|---|---|\n");
    for (size_t i = 0; i < ROWS; i++) {
        double m1, m2;
        medians(rows[i].first, rows[i].second, &m1, &m2);
        printf("| %s | %s | %.1f | %.1f | %.2f | ", rows[i].ours, rows[i].against, m1, m2, m1 / m2);
        if (rows[i].most == NO_TARGET) puts("| |");
        else printf("%.2f | %s |\n", rows[i].most, m1 / m2 <= rows[i].most ? "met" : "missed");
    }
    growth();
    return 0;
}
