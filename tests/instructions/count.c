/* How many instructions a call takes, counted one by one: the program stops itself before and behind the call, and a second
 * one lets it take single steps between the two stops (ptrace). The same is counted without a call, or with another one,
 * and the difference is what the row says. No clock is in it: the same machine code gives the same count, however busy the
 * machine is.
 *   count            every call against its limit; status 1 if one takes more, 2 if single steps are not allowed here,
 *                    3 if a call is refused or does not come back
 *   count planted    the same with plain forms in place of the library's: the check bit by bit, the chips' bytes one by one,
 *                    the bytes that differ counted one by one. Status 1 if each is found too slow, 0 if one is not */
#define _GNU_SOURCE
#include "../../include/kusikhut.h"
#include <signal.h>
#include <stdint.h>
#include <stdio.h>
#include <stdlib.h>
#include <string.h>
#include <sys/ptrace.h>
#include <sys/wait.h>
#include <unistd.h>

enum { CONTENT = 255, FRAME = 290, LONGEST = 223, CHECKS = 32, WORD = LONGEST + CHECKS, SYNC = 32, ODD = 3 };

static uint8_t content[CONTENT], frame[FRAME], out[FRAME];

/* The longest word with a correction: as it is received, with a header of two bytes before its check bytes, and as it
 * is proposed, without. */
static uint8_t received[WORD + 2], proposal[WORD];

/* A frame of mode C whose chips begin in the middle of a byte. */
static uint8_t chips[SYNC / 8 + FRAME + 1];
static uint64_t r[7];
static volatile uint64_t sink;

/* What the check would be if nothing of it were fast: the polynomial bit by bit, eight steps for each byte. */
static uint16_t plain_check(const uint8_t *s, size_t n) {
    uint16_t reg = 0;
    for (size_t i = 0; i < n; i++) {
        reg ^= (uint16_t)(s[i] << 8);
        for (int k = 0; k < 8; k++) reg = (uint16_t)(reg & 0x8000 ? reg << 1 ^ 0x3D65 : reg << 1);
    }
    return (uint16_t)~reg;
}

/* Decoding of NRZ with its bytes taken one by one. */
static uint8_t plain_decode(const uint8_t *s, size_t len, size_t start, size_t n, uint8_t *to, size_t room,
                            uint64_t *v) {
    if (room < n) return 4;
    for (size_t i = 0; i < n; i++) {
        if (kusikhut_word_nrz(s, len, start + 8 * i, v) != 0) return 1;
        to[i] = (uint8_t)v[0];
    }
    return 0;
}

/* Receiving, and the frame's bytes taken one by one besides. */
static uint8_t plain_receive(const uint8_t *s, size_t len, size_t start, size_t allowance, uint8_t *to, size_t room,
                             uint64_t *v) {
    uint8_t answer = plain_decode(s, len, start + ODD + SYNC, FRAME, to, room, v);
    return answer == 0 ? kusikhut_receive(s, len, start, allowance, to, room, v) : answer;
}

/* Judging, and the bytes that differ counted one by one besides. */
static uint8_t plain_judge(const uint8_t *p, size_t n, const uint8_t *s, size_t m, uint64_t *v) {
    const volatile uint8_t *x = p, *y = s;
    uint64_t count = 0;
    for (size_t i = 0; i < LONGEST; i++) count += x[i] != y[i];
    for (size_t i = LONGEST; i < WORD; i++) count += x[i] != y[i + 2];
    uint8_t answer = kusikhut_mending_judge_a(p, n, s, m, v);
    return answer == 0 && v[0] != count ? 1 : answer;
}

static uint16_t (*check)(const uint8_t *, size_t) = kusikhut_check;
static __typeof__(kusikhut_decode_nrz) *decode = kusikhut_decode_nrz;
static __typeof__(kusikhut_receive) *receive = kusikhut_receive;
static __typeof__(kusikhut_mending_judge_a) *judge = kusikhut_mending_judge_a;

static void nothing(void) {}
static void check16(void) { sink += check(content, 16); }
static void check128(void) { sink += check(content, 128); }
static void read_a(void) { sink += kusikhut_read_a(frame, FRAME, out, FRAME, r); }
static void write_a(void) { sink += kusikhut_write_a(content, CONTENT, out, FRAME, r); }
static void update125(void) { sink += kusikhut_update(0x1234, 1, 2, 125, r); }
static void decode290(void) { sink += decode(frame, FRAME, 0, FRAME, out, FRAME, r); }
static void receive_c(void) { sink += receive(chips, sizeof chips, 0, 64, out, FRAME, r); }
static void judge255(void) { sink += judge(proposal, WORD, received, sizeof received, r); }
static void checks223(void) { sink += kusikhut_correction_check_bytes(proposal, LONGEST, out, FRAME, r); }

/* A tenth more than was counted when the limit was set, by processor. */
#if defined __aarch64__
#define LIMIT(arm, x86) arm
#elif defined __x86_64__
#define LIMIT(arm, x86) x86
#else
#define LIMIT(arm, x86) (arm + x86) /* not counted yet: only a form that was lost altogether is seen */
#endif

/* A row's call, less what another one takes. Where a plain form is planted in a row, that one must be found too slow. */
static const struct {
    const char *name;
    void (*call)(void), (*less)(void);
    long most;
    int planted;
} calls[] = {
    {"check of 16 bytes", check16, nothing, LIMIT(90, 128), 1},
    {"check of 128 bytes", check128, nothing, LIMIT(466, 700), 1},
    {"read a 290-byte A frame", read_a, nothing, LIMIT(2160, 3040), 0},
    {"write a 290-byte A frame", write_a, nothing, LIMIT(1960, 2840), 0},
    {"check update at distance 125", update125, nothing, LIMIT(156, 174), 0},
    /* On Arm these three were not counted: only a form that takes bytes one by one is seen there. Decoding and receiving
     * also call memset and memcpy, which differ from machine to machine: half more than was counted. */
    {"decode 290 bytes of NRZ", decode290, nothing, LIMIT(2000, 800), 1},
    {"receive a 290-byte frame of mode C", receive_c, nothing, LIMIT(8000, 5400), 1},
    {"judge a 255-byte code word beyond its check bytes", judge255, checks223, LIMIT(1000, 318), 1},
};
enum { CALLS = sizeof calls / sizeof *calls };

/* Stops before and behind the call. The pointer is read again each time, so that no call is drawn into this one. */
static void stepped(void (*volatile call)(void)) {
    raise(SIGSTOP);
    call();
    raise(SIGSTOP);
}

enum { REFUSED = -1, BROKEN = -2 }; /* single steps are not allowed here; the call did not come back */

/* Lets a stopped program take one step, and waits until it is through. */
static int step(pid_t child, int *status) {
    return ptrace(PTRACE_SINGLESTEP, child, 0, 0) == 0 && waitpid(child, status, 0) == child;
}

static int stopped_by(int status, int signal) { return WIFSTOPPED(status) && WSTOPSIG(status) == signal; }

/* The steps from the first stop to the second. */
static long counted(pid_t child) {
    int status;
    if (waitpid(child, &status, 0) != child) return BROKEN;
    if (WIFEXITED(status) && WEXITSTATUS(status) == 2) return REFUSED;
    if (!stopped_by(status, SIGSTOP)) return BROKEN;
    for (long count = 0;; count++) {
        if (!step(child, &status)) return REFUSED;
        if (stopped_by(status, SIGSTOP)) return count;
        if (!stopped_by(status, SIGTRAP)) return BROKEN;
    }
}

static long steps(void (*call)(void)) {
    pid_t child = fork();
    if (child < 0) return BROKEN;
    if (child == 0) {
        if (ptrace(PTRACE_TRACEME, 0, 0, 0) != 0) _exit(2);
        call(); /* once before, so that nothing is bound or loaded while steps are counted */
        stepped(call);
        _exit(0);
    }
    long count = counted(child);
    kill(child, SIGKILL);
    waitpid(child, NULL, 0);
    return count;
}

/* Puts the chips of what was sent ODD chips further on. */
static void shift(const uint8_t *sent, size_t n) {
    for (size_t i = 0; i < n; i++) {
        chips[i] |= (uint8_t)(sent[i] >> ODD);
        chips[i + 1] |= (uint8_t)(sent[i] << (8 - ODD));
    }
}

/* A frame, its chips, and the longest word with its correction. The calls that are counted must be accepted. */
static int prepare(void) {
    for (size_t i = 0; i < CONTENT; i++) content[i] = (uint8_t)(i * 37 + 11);
    if (kusikhut_write_a(content, CONTENT - 59, frame, FRAME, r) != 0 || r[0] != LONGEST) return 0;
    if (kusikhut_correction_write_a(frame, LONGEST, received, sizeof received, r) != 0) return 0;
    memcpy(proposal, received, LONGEST);
    memcpy(proposal + LONGEST, received + LONGEST + 2, CHECKS);
    uint8_t sent[sizeof chips - 1];
    if (kusikhut_send_c_a(content, CONTENT, sent, sizeof sent, r) != 0 || r[0] != sizeof sent) return 0;
    shift(sent, sizeof sent);
    if (receive(chips, sizeof chips, 0, 64, out, FRAME, r) != 0 || memcmp(out, content, CONTENT) != 0) return 0;
    if (kusikhut_write_a(content, CONTENT, frame, FRAME, r) != 0) return 0;
    return decode(frame, FRAME, 0, FRAME, out, FRAME, r) == 0 && memcmp(out, frame, FRAME) == 0 &&
           judge(proposal, WORD, received, sizeof received, r) == 0 && r[0] == 0;
}

int main(int argc, char **argv) {
    int planted = argc == 2 && strcmp(argv[1], "planted") == 0;
    if (planted) {
        check = plain_check;
        decode = plain_decode;
        receive = plain_receive;
        judge = plain_judge;
    }
    if (!prepare()) return 3;
    int slow = 0, missed = 0;
    for (size_t i = 0; i < CALLS; i++) {
        long count = steps(calls[i].call), less = steps(calls[i].less);
        if (less == REFUSED || count == REFUSED) return 2;
        if (less == BROKEN || count == BROKEN) return 3;
        count -= less;
        printf("%s: %ld instructions, at most %ld\n", calls[i].name, count, calls[i].most);
        slow |= count > calls[i].most;
        missed |= calls[i].planted && count <= calls[i].most;
    }
    return planted ? !missed : slow;
}
