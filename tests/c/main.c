/* Links libkusikhut.a from C and walks through a collector's day with the frame of EN 13757-4:2019, Annex C.2:
 * receive it, change a byte in it, send it on, write correction bytes behind it, mend it by them, number its sessions,
 * and see refusals leave lent memory alone. */
#include "../../include/kusikhut.h"
#include <stdio.h>
#include <string.h>

static int failed;

static void expect(int holds, const char *what) {
    if (!holds) {
        printf("FAILED: %s\n", what);
        failed = 1;
    }
}

static const uint8_t content[15] = {0x44, 0xAE, 0x0C, 0x78, 0x56, 0x34, 0x12, 0x01, 0x07, 0x78, 0x0B, 0x13, 0x43, 0x65, 0x87};
static const uint8_t frame[20] = {0x0F, 0x44, 0xAE, 0x0C, 0x78, 0x56, 0x34, 0x12, 0x01, 0x07,
                                  0x44, 0x47, 0x78, 0x0B, 0x13, 0x43, 0x65, 0x87, 0x1E, 0x6D};

static int all(const uint8_t *bytes, size_t n, uint8_t value) {
    for (size_t i = 0; i < n; i++)
        if (bytes[i] != value) return 0;
    return 1;
}

static void frames(void) {
    uint8_t out[64], copy[20];
    uint64_t r[7];
    memset(out, 0xEE, sizeof out);
    expect(kusikhut_write_a(content, 15, out, sizeof out, r) == 0 && r[0] == 20, "write: accepted with 20 bytes");
    expect(memcmp(out, frame, 20) == 0 && all(out + 20, 44, 0xEE), "write: the frame, and nothing behind it");
    memset(out, 0xEE, sizeof out);
    expect(kusikhut_read_a(frame, 20, out, 15, r) == 0 && r[0] == 20 && r[1] == 15 && r[2] == 0, "read: accepted");
    expect(memcmp(out, content, 15) == 0 && all(out + 15, 49, 0xEE), "read: the content, and nothing behind it");
    memset(out, 0xEE, sizeof out);
    expect(kusikhut_read_a(frame, 18, out, sizeof out, r) == 1 && all(out, 64, 0xEE), "read: cut two bytes early is refused");
    expect(r[0] == 0 && r[1] == 0 && r[2] == 0, "read: a refusal's other results are zero");
    memcpy(copy, frame, 20);
    expect(kusikhut_change_a(copy, 20, 14, 0x88, r) == 0, "change: accepted");
    expect(copy[17] == 0x88 && kusikhut_read_a(copy, 20, out, sizeof out, r) == 0, "change: the frame is right again");
    expect(kusikhut_change_a(copy, 20, 15, 0, r) == 9, "change: a place that is not below n");
    copy[13] ^= 1;
    expect(kusikhut_read_a(copy, 20, out, sizeof out, r) == 3 && r[2] == 2, "read: the second block's check is wrong");
}

static void chips(void) {
    uint8_t air[64], out[32];
    uint64_t r[7];
    memset(air, 0, sizeof air);
    expect(kusikhut_send_t_a(content, 15, air + 3, sizeof air - 3, r) == 0 && r[0] == 32, "send: 32 bytes of chips");
    memset(out, 0xEE, sizeof out);
    expect(kusikhut_receive(air, sizeof air, 0, 1000, out, sizeof out, r) == 0, "receive: accepted");
    expect(r[0] == 0 && r[1] == 24 && r[2] == 25 && r[3] == 20 && r[4] == 15, "receive: kind, place, tried, size, n");
    expect(memcmp(out, content, 15) == 0 && all(out + 15, 17, 0xEE), "receive: the content, and nothing behind it");
    expect(kusikhut_receive(air, sizeof air, 25, 10, out, sizeof out, r) == 14 && r[2] == 10, "receive: allowance used up");
    expect(kusikhut_receive(air, 0, 0, 10, out, sizeof out, r) == 7 && r[2] == 0, "receive: the empty buffer");
}

enum { CORRECTED = 20 + KUSIKHUT_CORRECTION_SIZE, LONGEST = 223, OVER = 224 };

/* Annex C.3, format B; and the check bytes of both frames. */
static const uint8_t frame_b[21] = {0x14, 0x44, 0xAE, 0x0C, 0x78, 0x56, 0x34, 0x12, 0x01, 0x07, 0x8C,
                                    0x20, 0x27, 0x78, 0x0B, 0x13, 0x43, 0x65, 0x87, 0x7A, 0xC5};
static const uint8_t checks[32] = {0x84, 0xEA, 0x27, 0x69, 0x58, 0xEC, 0x76, 0xA2, 0x96, 0x78, 0xBF,
                                   0x51, 0xDF, 0xED, 0x76, 0x61, 0xD4, 0x6D, 0x36, 0xB8, 0x52, 0x3B,
                                   0xAE, 0x78, 0x7C, 0xEF, 0xFD, 0x7B, 0x00, 0x7E, 0xC9, 0xC6};
static const uint8_t checks_b[32] = {0x9B, 0x45, 0xF3, 0x8E, 0x71, 0xEA, 0xB5, 0xDB, 0xC8, 0x01, 0x86,
                                     0x02, 0x9E, 0xF9, 0x80, 0xE1, 0x88, 0xF8, 0x36, 0x8D, 0x98, 0x3C,
                                     0xA0, 0x55, 0xF2, 0x1D, 0x5F, 0x34, 0xD4, 0xE8, 0x59, 0x35};

static void corrections(void) {
    uint8_t out[64], longer[22];
    uint64_t r[1];
    memset(out, 0xEE, sizeof out);
    expect(kusikhut_correction_write_a(frame, 20, out, CORRECTED, r) == 0 && r[0] == CORRECTED, "correction: 54 bytes");
    expect(memcmp(out, frame, 20) == 0 && out[20] == 0x21 && out[21] == 0x04, "correction: frame and header");
    expect(memcmp(out + 22, checks, 32) == 0, "correction: the check bytes");
    expect(all(out + CORRECTED, 10, 0xEE), "correction: nothing behind them is touched");
    memset(out, 0xEE, sizeof out);
    memcpy(longer, frame_b, 21);
    longer[21] = 0x55;
    expect(kusikhut_correction_write_b(longer, 22, out, sizeof out, r) == 0 && r[0] == 55, "correction: format B");
    expect(memcmp(out, frame_b, 21) == 0 && out[21] == 0x21 && out[22] == 0x04, "correction: the frame alone");
    expect(memcmp(out + 23, checks_b, 32) == 0 && all(out + 55, 9, 0xEE), "correction: format B's check bytes");
}

static void correction_refusals(void) {
    uint8_t out[CORRECTED], wrong[20], zeros[197] = {0}, longest[LONGEST], over[OVER], room[257];
    uint64_t r[2] = {0xEE, 0xEE};
    memset(out, 0xEE, sizeof out);
    memcpy(wrong, frame, 20);
    wrong[13] ^= 1;
    expect(kusikhut_correction_write_a(frame, 0, out, CORRECTED, r) == 1 && r[0] == 0, "correction: no byte");
    expect(kusikhut_correction_write_a(zeros, 1, out, CORRECTED, r) == 2 && r[0] == 0, "correction: the length byte");
    expect(kusikhut_correction_write_a(frame, 19, out, CORRECTED, r) == 1 && r[0] == 0, "correction: a byte missing");
    expect(kusikhut_correction_write_a(wrong, 20, out, 0, r) == 3 && r[0] == 2, "correction: the second block's check");
    expect(kusikhut_correction_write_b(frame_b, 21, out, 54, r) == 4 && r[0] == 0, "correction: too little room");
    expect(kusikhut_write_a(zeros, 196, longest, LONGEST, r) == 0 && r[0] == LONGEST, "write: 223 bytes");
    expect(kusikhut_write_a(zeros, 197, over, OVER, r) == 0 && r[0] == OVER, "write: 224 bytes");
    expect(kusikhut_correction_write_a(over, OVER, out, CORRECTED, r) == 23 && r[0] == 0, "correction: 23 before 4");
    over[LONGEST] ^= 1;
    expect(kusikhut_correction_write_a(over, OVER, out, CORRECTED, r) == 3 && r[0] == 13, "correction: 3 before 23");
    expect(all(out, CORRECTED, 0xEE), "correction: a refusal leaves lent memory");
    expect(kusikhut_correction_write_a(longest, LONGEST, room, 257, r) == 0 && r[0] == 257, "correction: 223 bytes");
    expect(r[1] == 0xEE, "correction: the row has one place");
}

static void check_bytes(void) {
    uint8_t out[33], word[OVER];
    uint64_t r[2] = {0xEE, 0xEE};
    memset(out, 0xEE, sizeof out);
    memset(word, 0, sizeof word);
    memcpy(word + LONGEST - 20, frame, 20);
    expect(kusikhut_correction_check_bytes(word, OVER, out, 31, r) == 23 && r[0] == 0, "check bytes: too many");
    expect(kusikhut_correction_check_bytes(frame, 20, out, 31, r) == 4 && r[0] == 0, "check bytes: too little room");
    expect(all(out, 33, 0xEE), "check bytes: a refusal leaves lent memory");
    expect(kusikhut_correction_check_bytes(frame, 20, out, 33, r) == 0 && r[0] == 32, "check bytes: 32");
    expect(memcmp(out, checks, 32) == 0 && out[32] == 0xEE, "check bytes: those of the frame, and nothing behind them");
    memset(out, 0xEE, sizeof out);
    expect(kusikhut_correction_check_bytes(word, LONGEST, out, 32, r) == 0, "check bytes: 223 bytes");
    expect(memcmp(out, checks, 32) == 0, "check bytes: zero bytes before the word change nothing");
    expect(kusikhut_correction_check_bytes(word, 0, out, 32, r) == 0 && all(out, 32, 0), "check bytes: of no byte");
    expect(r[1] == 0xEE, "check bytes: the row has one place");
}

/* The bytes as they are sent, low byte first. */
static uint8_t announced(uint16_t header) {
    return kusikhut_correction_header((const uint8_t[2]){header & 0xFF, header >> 8}, 2);
}

static void correction_headers(void) {
    static const uint8_t header[3] = {0x21, 0x04, 0xFF};
    expect(kusikhut_correction_header(header, 0) == 1, "announced: no byte");
    expect(kusikhut_correction_header(header, 1) == 1, "announced: one byte");
    expect(kusikhut_correction_header(header, 3) == 0, "announced: bytes behind it mean nothing");
    expect(announced(0x0421) == 0 && announced(0x8421) == 0, "announced: bit 15 is not looked at");
    expect(announced(0x0420) == 0 && announced(0x0401) == 0 && announced(0x0021) == 0, "announced: one of three wrong");
    expect(announced(0x0001) == 24 && announced(0x0020) == 24 && announced(0x0400) == 24, "announced: two wrong");
    expect(announced(0x24A3) == 0, "announced: each copy wrong in another bit");
    expect(announced(0x0C63) == 24 && announced(0x0000) == 24, "announced: another code, and none");
    expect(announced(0x7FFF) == 24 && announced(0xFFFF) == 24, "announced: the reserved one");
}

/* The frame and its check bytes as they are sent, with the header between them, and as they are proposed. */
enum { WORD = CORRECTED - 2 };

static void sent_and_proposed(uint8_t *sent, uint8_t *word) {
    uint64_t r[1];
    expect(kusikhut_correction_write_a(frame, 20, sent, CORRECTED, r) == 0, "mending: there is something to mend");
    memcpy(word, frame, 20);
    memcpy(word + 20, checks, 32);
}

/* Each byte behind the length byte wrong once; those of the header do not count. */
static void mending(void) {
    uint8_t sent[CORRECTED], word[WORD], got[CORRECTED], copy[CORRECTED], out[WORD + 1], read[15];
    uint64_t r[3];
    sent_and_proposed(sent, word);
    for (size_t at = 1; at < CORRECTED; at++) {
        uint64_t counted = at != 20 && at != 21;
        memcpy(got, sent, CORRECTED);
        got[at] ^= 0x5A;
        memcpy(copy, got, CORRECTED);
        memset(out, 0xEE, sizeof out);
        expect(kusikhut_mending_propose_one_a(got, CORRECTED, out, WORD, r) == 0 && r[0] == WORD, "propose: 52 bytes");
        expect(memcmp(out, word, WORD) == 0 && out[WORD] == 0xEE, "propose: what was sent, and nothing behind it");
        expect(memcmp(got, copy, CORRECTED) == 0, "propose: the received bytes stay");
        expect(kusikhut_mending_judge_a(out, WORD, got, CORRECTED, r) == 0 && r[0] == counted, "judge: one differs");
        expect(kusikhut_read_a(out, WORD, read, 15, r) == 0 && memcmp(read, content, 15) == 0, "mending: it is read");
    }
}

/* Format B, with bytes behind what was received and behind what is proposed. */
static void mending_b(void) {
    uint8_t got[57], out[57];
    uint64_t r[1];
    memset(got, 0x55, sizeof got);
    memset(out, 0xEE, sizeof out);
    expect(kusikhut_correction_write_b(frame_b, 21, got, 55, r) == 0, "mending: format B");
    got[54] ^= 1;
    expect(kusikhut_mending_propose_one_b(got, 57, out, 57, r) == 0 && r[0] == 53, "propose: 53 bytes");
    expect(memcmp(out, frame_b, 21) == 0 && memcmp(out + 21, checks_b, 32) == 0, "propose: format B's word");
    expect(all(out + 53, 4, 0xEE), "propose: nothing behind it is touched");
    expect(kusikhut_mending_judge_b(out, 57, got, 57, r) == 0 && r[0] == 1, "judge: format B");
}

/* Up to 16 wrong bytes, the length byte among them, leave the word that was sent; more do not. */
static void judging(void) {
    uint8_t got[CORRECTED], word[WORD];
    uint64_t r[2] = {0xEE, 0xEE};
    sent_and_proposed(got, word);
    expect(kusikhut_mending_judge_a(word, WORD, got, CORRECTED, r) == 0 && r[0] == 0, "judge: none differs");
    for (uint64_t wrong = 1; wrong <= 16; wrong++) {
        got[wrong - 1] ^= 0xFF;
        expect(kusikhut_mending_judge_a(word, WORD, got, CORRECTED, r) == 0 && r[0] == wrong, "judge: up to 16 differ");
    }
    got[16] ^= 0xFF;
    expect(kusikhut_mending_judge_a(word, WORD, got, CORRECTED, r) == 26 && r[0] == 0, "judge: 17 differ");
    word[51] ^= 1;
    expect(kusikhut_mending_judge_a(word, WORD, got, CORRECTED, r) == 25 && r[0] == 0, "judge: 25 before 26");
    expect(kusikhut_mending_judge_a(word, WORD, got, CORRECTED - 1, r) == 1 && r[0] == 0, "judge: 1 before 25");
    expect(kusikhut_mending_judge_a(word, WORD - 1, got, CORRECTED, r) == 1 && r[0] == 0, "judge: a byte missing");
    expect(kusikhut_mending_judge_a(word, 0, got, CORRECTED, r) == 1 && r[0] == 0, "judge: no byte");
    word[0] = 9;
    expect(kusikhut_mending_judge_a(word, WORD, got, 0, r) == 2 && r[0] == 0, "judge: the length byte, before 1");
    word[0] = 197;
    expect(kusikhut_mending_judge_a(word, WORD, got, 0, r) == 23 && r[0] == 0, "judge: 224 bytes, before 1");
    expect(kusikhut_mending_judge_b((const uint8_t[1]){128}, 1, got, 0, r) == 2, "judge: no frame of format B has 128");
    expect(r[1] == 0xEE, "judge: the row has one place");
}

/* Two wrong bytes, and a wrong length byte, are not mended: the received word is proposed, and is no code word. */
static void not_mended(void) {
    uint8_t got[CORRECTED], word[WORD], out[WORD];
    uint64_t r[1];
    sent_and_proposed(got, word);
    got[1] ^= 1;
    got[53] ^= 1;
    expect(kusikhut_mending_propose_one_a(got, CORRECTED, out, WORD, r) == 0 && r[0] == WORD, "propose: two wrong");
    expect(memcmp(out, got, 20) == 0 && memcmp(out + 20, got + 22, 32) == 0, "propose: the received word");
    expect(kusikhut_mending_judge_a(out, WORD, got, CORRECTED, r) == 25 && r[0] == 0, "judge: no code word");
    sent_and_proposed(got, word);
    got[0] = 14;
    expect(kusikhut_mending_propose_one_a(got, CORRECTED, out, WORD, r) == 0 && r[0] == 51, "propose: another length");
    expect(memcmp(out, got, 19) == 0 && memcmp(out + 19, got + 21, 32) == 0, "propose: the received word of it");
    expect(kusikhut_mending_judge_a(out, 51, got, CORRECTED, r) == 25 && r[0] == 0, "judge: no code word of it");
    expect(kusikhut_mending_judge_a(word, WORD, got, CORRECTED, r) == 0 && r[0] == 1, "judge: the length byte differs");
}

/* One wrong byte more each time, from both ends: sixteen are mended, seventeen are left as they came. */
static void mending_sixteen(void) {
    uint8_t got[CORRECTED], word[WORD], copy[CORRECTED], out[WORD + 1];
    uint64_t r[1];
    sent_and_proposed(got, word);
    got[20] = got[21] = 0xEE;
    for (uint64_t wrong = 1; wrong <= 17; wrong++) {
        got[wrong % 2 ? wrong : CORRECTED - wrong] ^= 0x5A;
        memcpy(copy, got, CORRECTED);
        memset(out, 0xEE, sizeof out);
        expect(kusikhut_mending_propose_a(got, CORRECTED, out, WORD, r) == 0 && r[0] == WORD, "sixteen: 52 bytes");
        expect(memcmp(got, copy, CORRECTED) == 0 && out[WORD] == 0xEE, "sixteen: received bytes and those behind stay");
        if (wrong <= 16) {
            expect(memcmp(out, word, WORD) == 0, "sixteen: what was sent");
            expect(kusikhut_mending_judge_a(out, WORD, got, CORRECTED, r) == 0 && r[0] == wrong, "sixteen: counted");
        } else {
            expect(memcmp(out, got, 20) == 0 && memcmp(out + 20, got + 22, 32) == 0, "seventeen: as received");
            expect(kusikhut_mending_judge_a(out, WORD, got, CORRECTED, r) == 25, "seventeen: no code word");
        }
    }
    uint8_t got_b[55], out_b[53];
    expect(kusikhut_correction_write_b(frame_b, 21, got_b, 55, r) == 0, "sixteen: format B");
    memset(got_b + 1, 0xEE, 15);
    expect(kusikhut_mending_propose_b(got_b, 55, out_b, 53, r) == 0 && r[0] == 53, "sixteen: 53 bytes");
    expect(memcmp(out_b, frame_b, 21) == 0 && memcmp(out_b + 21, checks_b, 32) == 0, "sixteen: format B's word");
    got_b[0] = 9;
    memset(out_b, 0xEE, sizeof out_b);
    expect(kusikhut_mending_propose_b(got_b, 0, out_b, 0, r) == 1 && r[0] == 0, "sixteen: nothing received");
    expect(kusikhut_mending_propose_b(got_b, 55, out_b, 0, r) == 2 && r[0] == 0, "sixteen: the length byte");
    got_b[0] = 223;
    expect(kusikhut_mending_propose_b(got_b, 55, out_b, 0, r) == 23 && r[0] == 0, "sixteen: over 223 bytes");
    got_b[0] = 20;
    expect(kusikhut_mending_propose_b(got_b, 54, out_b, 0, r) == 1 && r[0] == 0, "sixteen: 1 before 4");
    expect(kusikhut_mending_propose_b(got_b, 55, out_b, 52, r) == 4 && r[0] == 0, "sixteen: no room");
    expect(all(out_b, 53, 0xEE), "sixteen: a refusal leaves lent memory");
}

static void proposing_refusals(void) {
    uint8_t got[CORRECTED], word[WORD], out[WORD];
    uint64_t r[2] = {0xEE, 0xEE};
    sent_and_proposed(got, word);
    memset(out, 0xEE, sizeof out);
    got[0] = 9;
    expect(kusikhut_mending_propose_one_a(got, 0, out, 0, r) == 1 && r[0] == 0, "propose: nothing received");
    expect(kusikhut_mending_propose_one_a(got, 1, out, 0, r) == 2 && r[0] == 0, "propose: the length byte");
    got[0] = 197;
    expect(kusikhut_mending_propose_one_a(got, 1, out, 0, r) == 23 && r[0] == 0, "propose: 224 bytes");
    got[0] = 15;
    expect(kusikhut_mending_propose_one_a(got, CORRECTED - 1, out, 0, r) == 1 && r[0] == 0, "propose: 1 before 4");
    expect(kusikhut_mending_propose_one_a(got, CORRECTED, out, WORD - 1, r) == 4 && r[0] == 0, "propose: no room");
    expect(all(out, WORD, 0xEE), "propose: a refusal leaves lent memory");
    expect(r[1] == 0xEE, "propose: the row has one place");
}

enum { SIZE = KUSIKHUT_STORE_SIZE };

static const uint8_t meter[8] = {0xAE, 0x0C, 0x78, 0x56, 0x34, 0x12, 0x01, 0x07}, other[8] = {1};

static void new_store(uint8_t *store) {
    uint64_t r[1];
    memset(store, 0xEE, SIZE + 1);
    expect(kusikhut_store_issue(store, SIZE, meter, r) == 18, "store: memory of another version");
    expect(kusikhut_store_issue(store, SIZE - 1, meter, r) == 18, "store: another version, also in too little memory");
    expect(kusikhut_store_issue(store, 1, meter, r) == 18, "store: another version in the only byte");
    expect(kusikhut_store_issue(store, 0, meter, r) == 17, "store: no byte, so no version");
    expect(kusikhut_store_empty(store, SIZE - 1, r) == 4 && all(store, SIZE, 0xEE), "store: too little memory");
    expect(kusikhut_store_empty(store, SIZE, r) == 0 && r[0] == 8, "store: empty, eight bytes");
    expect(all(store + 8, SIZE - 7, 0xEE), "store: nothing behind them is touched");
    expect(kusikhut_store_issue(store, SIZE - 1, meter, r) == 17, "store: memory that is too small for one");
    expect(kusikhut_store_issue(store, 1, meter, r) == 17, "store: the version alone");
}

static void numbers(uint8_t *store) {
    uint64_t r[1];
    expect(kusikhut_store_issue(store, SIZE, meter, r) == 19, "issue: not held");
    expect(kusikhut_store_hear(store, SIZE, meter, 7, r) == 19, "hear: not held");
    expect(kusikhut_store_add(store, SIZE, meter, 6, 0, r) == 17, "add: there is no mode 6");
    expect(kusikhut_store_add(store, SIZE, meter, 2, 2, r) == 17, "add: there is no format 2");
    expect(kusikhut_store_add(store, SIZE, meter, 2, 0, r) == 0 && r[0] == 28, "add: 28 bytes now");
    expect(kusikhut_store_issue(store, SIZE, meter, r) == 20 && r[0] == 0, "issue: unsure");
    expect(kusikhut_store_hear(store, SIZE, meter, 1000, r) == 0 && r[0] == 28, "hear");
    expect(kusikhut_store_issue(store, SIZE, meter, r) == 0 && r[0] == 1001, "issue: above what was heard");
    expect(kusikhut_store_set_allowance(store, SIZE, 20000, r) == 0 && r[0] == 28, "allowance: set");
}

/* A backup, a week of numbers, and the backup restored. */
static void restores(uint8_t *store) {
    uint8_t file[64], before[SIZE];
    uint64_t r[1];
    memset(file, 0xEE, sizeof file);
    expect(kusikhut_store_write(store, SIZE, file, 27, r) == 4 && all(file, 64, 0xEE), "write: no room");
    expect(kusikhut_store_write(store, SIZE, file, 64, r) == 0 && r[0] == 28, "write: 28 bytes");
    expect(memcmp(file, store, 28) == 0 && all(file + 28, 36, 0xEE), "write: the store, and nothing behind it");
    for (uint64_t day = 1; day <= 7; day++)
        expect(kusikhut_store_issue(store, SIZE, meter, r) == 0 && r[0] == 1001 + day, "issue: the next one");
    memcpy(before, store, SIZE);
    expect(kusikhut_store_restore(store, SIZE, file, 0, r) == 17, "restore: the empty file");
    expect(kusikhut_store_restore(store, SIZE, file, 29, r) == 17, "restore: a byte left over");
    expect(kusikhut_store_restore(store, SIZE, file + 1, 27, r) == 18, "restore: another version");
    expect(memcmp(before, store, SIZE) == 0, "restore: a refusal leaves the store");
    expect(kusikhut_store_restore(store, SIZE, file, 28, r) == 0 && r[0] == 28, "restore: accepted");
    expect(kusikhut_store_issue(store, SIZE, meter, r) == 0 && r[0] == 1009, "restore: no number is turned back");
    expect(kusikhut_store_empty(store, SIZE, r) == 0, "store: a new one");
    expect(kusikhut_store_restore(store, SIZE, file, 28, r) == 0 && r[0] == 28, "restore: into an empty store");
    expect(kusikhut_store_issue(store, SIZE, meter, r) == 20, "restore: nothing is issued before a number is heard");
}

static void held(uint8_t *store) {
    uint64_t r[4];
    expect(kusikhut_store_allowance(store, SIZE, r) == 0 && r[0] == 20000, "allowance: the file's");
    expect(kusikhut_store_look_up(store, SIZE, other, r) == 19 && !(r[0] | r[1] | r[2] | r[3]), "look up: not held");
    expect(kusikhut_store_look_up(store, SIZE, meter, r) == 0, "look up: held");
    expect(r[0] == 2 && r[1] == 0 && r[2] == 1001 && r[3] == 1, "look up: mode, format, number, unsure");
    expect(kusikhut_store_hear(store, SIZE, meter, UINT32_MAX, r) == 0, "hear: the largest number");
    expect(kusikhut_store_issue(store, SIZE, meter, r) == 21, "issue: none above it");
    for (uint8_t k = 1; k < 64; k++)
        expect(kusikhut_store_add(store, SIZE, (const uint8_t[8]){k}, 5, 1, r) == 0, "add: up to 64");
    expect(kusikhut_store_add(store, SIZE, (const uint8_t[8]){64}, 5, 1, r) == 22, "add: one too many");
    expect(kusikhut_store_add(store, SIZE, meter, 3, 1, r) == 0 && r[0] == SIZE, "add: one that is held");
    expect(store[SIZE] == 0xEE, "store: nothing behind its memory is touched");
}

static void expect_maker(uint16_t m, const uint64_t due[5], const char *what) {
    uint64_t r[6];
    memset(r, 0xEE, sizeof r);
    expect(kusikhut_maker(m, r) == 0 && memcmp(r, due, 5 * sizeof *r) == 0, what);
    expect(all((const uint8_t *)(r + 5), sizeof *r, 0xEE), "maker: nothing behind its five results is touched");
}

static void makers(void) {
    expect_maker(0x0443, (const uint64_t[5]){1, 'A', 'B', 'C', 0}, "maker: ABC, hard");
    expect_maker(0x8443, (const uint64_t[5]){1, 'A', 'B', 'C', 1}, "maker: ABC, soft");
    expect_maker(0x0000, (const uint64_t[5]){0, 0, 0, 0, 0}, "maker: no letters, hard");
    expect_maker(0xFFFF, (const uint64_t[5]){0, 0, 0, 0, 1}, "maker: no letters, soft");
}

int main(void) {
    uint8_t store[SIZE + 1];
    uint64_t r[14];
    double khz[1];
    static const uint8_t body[3] = {0x8C, 0x20, 0x27};
    expect(kusikhut_check((const uint8_t *)"123456789", 9) == 0xC2B7, "check of 123456789");
    expect(kusikhut_update(0xFFFF, 0, 1, 0, r) == 0 && r[0] == 0xC29A, "update");
    expect(kusikhut_update(0xFFFF, 0, 1, 126, r) == 10 && r[0] == 0, "update: distance over 125");
    frames();
    chips();
    corrections();
    correction_refusals();
    check_bytes();
    correction_headers();
    mending();
    mending_b();
    judging();
    not_mended();
    mending_sixteen();
    proposing_refusals();
    new_store(store);
    numbers(store);
    restores(store);
    held(store);
    expect(kusikhut_header_read(body, 3, r) == 0 && r[0] == 3 && r[1] == 0x8C && r[2] == 0x20 && r[3] == 0x27, "header");
    expect(kusikhut_access(0x84) == 3 && kusikhut_access(0x20) == 0, "access");
    makers();
    expect(kusikhut_centre(5, 0, khz) == 0 && khz[0] == 169481.25, "centre");
    expect(kusikhut_centre(5, 1, khz) == 13 && khz[0] == 0, "no such channel");
    if (!failed) puts("tests/c: the C program links the library and got every answer");
    return failed;
}
