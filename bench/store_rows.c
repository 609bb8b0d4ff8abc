/* See store_rows.h. The meters' addresses are random but always the same; calls on one meter take the last one, which is
 * the dearest for whoever searches from the front. Each hearing brings a larger number, so that it is stored. */
#include "store_rows.h"
#include "../include/kusikhut.h"
#include "numbers.h"
#include "store_twin.h"
#include <string.h>

enum { ROOM = KUSIKHUT_STORE_SIZE, MOST = 64, SLOTS = 509 /* as in crates/store/src/index.rt */ };

/* Behind the store stands what could be a meter more: it must mean nothing. */
typedef struct {
    uint8_t store[ROOM + 20], out[ROOM];
    uint64_t results[4];
    uint32_t heard;
} Side;

static Side ours, other;
static uint8_t meters[MOST][8], file[ROOM + 40];
static size_t count, file_len;
static volatile uint64_t sink;

/* Kept apart, so that no call is optimised away or mixed with another. */
#define BOTH(name, before, call, ...) \
    __attribute__((noinline)) void store_##name##_ours(void) { \
        Side *k = &ours; \
        before; \
        sink += kusikhut_store_##call(__VA_ARGS__, k->results); \
    } \
    __attribute__((noinline)) void store_##name##_other(void) { \
        Side *k = &other; \
        before; \
        sink += twin_store_##call(__VA_ARGS__, k->results); \
    }
#define LAST meters[count - 1]
BOTH(add, , add, k->store, ROOM, LAST, 2, 1)
BOTH(add_new, k->store[7] = (uint8_t)(count - 1), add, k->store, ROOM, LAST, 2, 1)
BOTH(hear, k->heard++, hear, k->store, ROOM, LAST, k->heard)
BOTH(issue, , issue, k->store, ROOM, LAST)
BOTH(look_up, , look_up, k->store, ROOM, LAST)
BOTH(allowance, , allowance, k->store, ROOM)
BOTH(set_allowance, , set_allowance, k->store, ROOM, k->heard)
BOTH(write, , write, k->store, ROOM, k->out, ROOM)
BOTH(restore, , restore, k->store, ROOM, file, file_len)
BOTH(restore_new, k->store[7] = 0, restore, k->store, ROOM, file, file_len)
BOTH(empty, , empty, k->out, ROOM)

static uint32_t state;
static uint32_t below(uint32_t n) { return next_number(&state) % n; }

/* The memories hold the meters, all sure; the file has them in another order. */
static void fill(void) {
    twin_store_empty(ours.store, ROOM, ours.results);
    for (size_t i = 0; i < count; i++) {
        twin_store_add(ours.store, ROOM, meters[i], (uint8_t)(i % 6), (uint8_t)(i % 2), ours.results);
        twin_store_hear(ours.store, ROOM, meters[i], (uint32_t)(1000 * i), ours.results);
    }
    memcpy(ours.store + ROOM, ours.store + 8, 20);
    ours.store[ROOM + 1]++;
    other = ours;
    memcpy(file, ours.store, ROOM);
    file_len = 8 + 20 * count;
    for (size_t i = count; i > 1; i--) {
        uint8_t one[20], *last = file + 8 + 20 * (i - 1), *any = file + 8 + 20 * below((uint32_t)i);
        memcpy(one, last, 20);
        memcpy(last, any, 20);
        memcpy(any, one, 20);
    }
}

void store_sized(size_t n) {
    state = 20261115;
    count = n;
    for (size_t i = 0; i < n; i++)
        for (size_t k = 0; k < 8; k++) meters[i][k] = (uint8_t)below(256);
    fill();
}

void store_hostile(void) {
    store_sized(MOST);
    for (size_t i = 0; i < MOST; i++) {
        uint64_t address = 0x2D2C785634120107u + SLOTS * i;
        for (size_t k = 0; k < 8; k++) meters[i][k] = (uint8_t)(address >> (56 - 8 * k));
    }
    fill();
}

/* A byte that is right somewhere, or nearly. */
static uint8_t likely(void) {
    static const uint8_t some[] = {0, 1, 2, 3, 4, 5, 6, 8, 63, 64, 65, 254, 255};
    return below(4) ? some[below(sizeof some)] : (uint8_t)below(256);
}

static void damage(uint8_t *s, size_t len) {
    if (len == 0) return;
    size_t at = below(2) ? below((uint32_t)len) : below(len < 60 ? (uint32_t)len : 60);
    s[at] = likely();
}

/* One meter's bytes over those of another, so that it stands twice. */
static void twice(uint8_t *s, size_t head) {
    size_t n = s[head - 1];
    if (n > 1 && n <= MOST) memcpy(s + head + 20 * below((uint32_t)n) + 1, s + head + 20 * below((uint32_t)n) + 1, 8);
}

/* Another file than the last: some of the meters, as either version, mostly right. */
static void another_file(void) {
    size_t head = below(3) ? 8 : 3, n = below(4) ? below(12) : MOST + 1 - below(below(2) ? 3 : MOST);
    static const uint8_t two[8] = {2, 4, 0, 1, 2, 3, 1, 0}, one[3] = {1, 1, 0};
    memcpy(file, head == 8 ? two : one, head);
    file[head - 1] = (uint8_t)n;
    for (size_t i = 0, from = below(MOST); i < n; i++) {
        uint8_t *m = file + head + 20 * i;
        memcpy(m, "\x08........\x01\x00\x01\x00\x04\x00\x00\x00\x00\x01\x00", 20);
        memcpy(m + 1, meters[(from + i) % MOST], 8);
        if (below(3) == 0) m[1] ^= (uint8_t)(1 + below(3));
        m[10] = (uint8_t)below(6);
        m[12] = (uint8_t)below(2);
        for (size_t k = 14; k < 18; k++) m[k] = likely();
        m[19] = (uint8_t)below(2);
    }
    file_len = head + 20 * n;
    if (below(6) == 0) twice(file, head);
    if (below(4) == 0) damage(file, file_len);
    if (below(8) == 0) file_len = below((uint32_t)file_len + 1);
    if (below(8) == 0) file[file_len++] = likely();
}

static int same_call(size_t len) {
    uint8_t meter[8], mode = below(8) ? (uint8_t)below(6) : likely(), format = below(8) ? (uint8_t)below(2) : likely();
    uint32_t number = below(4) ? below(100) : UINT32_MAX - below(3), x = 0, y = 0;
    size_t room = below(3) ? ROOM : below(ROOM);
    memcpy(meter, meters[below(MOST)], 8);
    if (below(4) == 0) meter[below(8)] = likely();
#define EACH(call, ...) \
    { \
        Side *k = &ours; \
        x = kusikhut_store_##call(__VA_ARGS__, k->results); \
        k = &other; \
        y = twin_store_##call(__VA_ARGS__, k->results); \
        break; \
    }
    switch (below(12)) {
    case 0: case 1: EACH(add, k->store, len, meter, mode, format)
    case 2: case 3: EACH(hear, k->store, len, meter, number)
    case 4: case 5: EACH(issue, k->store, len, meter)
    case 6: EACH(look_up, k->store, len, meter)
    case 7: EACH(allowance, k->store, len)
    case 8: EACH(set_allowance, k->store, len, number)
    case 9: EACH(write, k->store, len, k->out, room)
    case 10: another_file(); EACH(restore, k->store, len, file, file_len)
    default: if (below(20) == 0) EACH(empty, k->store, len)
    }
    return x == y && memcmp(&ours, &other, sizeof ours) == 0;
}

int store_same(void) {
    uint8_t kept[sizeof ours.store];
    store_sized(MOST);
    for (int i = 0; i < 100000; i++) {
        size_t len = below(30) ? ROOM + below(21) : below(ROOM);
        int hurt = below(4) == 0;
        memcpy(kept, ours.store, sizeof kept);
        if (hurt && below(3) == 0) twice(ours.store, 8);
        else if (hurt) damage(ours.store, below(2) ? 8 : ROOM);
        memcpy(other.store, ours.store, sizeof kept);
        if (!same_call(len)) return 0;
        if (hurt) memcpy(ours.store, kept, sizeof kept);
        memcpy(other.store, ours.store, sizeof kept);
        if (below(200) == 0) store_sized(MOST), state += (uint32_t)i;
    }
    store_sized(MOST);
    return 1;
}
