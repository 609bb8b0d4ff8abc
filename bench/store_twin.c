/* See store_twin.h. One pass judges the meters, keeps a table of them and finds the one that is asked for; then the bytes
 * that differ are stored where they stand, and no others. Eight bytes are read as one number and compared as they lie in
 * memory, so this is for processors that store the low byte first, as both do that the library is built for. */
#include "store_twin.h"
#include <string.h>

_Static_assert(__BYTE_ORDER__ == __ORDER_LITTLE_ENDIAN__, "the masks below have the low byte first");

enum { ROOM = 1288, MOST = 64, SIZE = 20, SLOTS = 256 };

static inline uint64_t eight(const uint8_t *s) {
    uint64_t x;
    memcpy(&x, s, sizeof x);
    return x;
}

static inline uint32_t number_at(const uint8_t *s) {
    uint32_t x;
    memcpy(&x, s, sizeof x);
    return __builtin_bswap32(x);
}

static inline void put_number(uint8_t *s, uint32_t x) {
    x = __builtin_bswap32(x);
    memcpy(s, &x, sizeof x);
}

/* Bytes that all meters share are judged once for all of them: a fixed byte is right in each if both the ones that some
 * have (`some`) and those that all have (`all`) are its own. Bytes 8 to 15 stand in `lead`, 12 to 19 in `end`. A mode is
 * below 6 if neither it nor it plus two has a digit above the third (the first of both keeps a carry out). */
typedef struct {
    uint64_t lead_some, lead_all, end_some, end_all, modes, first_some, first_all;
} Seen;

static const Seen nothing = {0, UINT64_MAX, 0, UINT64_MAX, 0, 0, UINT64_MAX};

static inline void see(Seen *seen, const uint8_t *s) {
    uint64_t lead = eight(s + 8), end = eight(s + 12);
    seen->lead_some |= lead;
    seen->lead_all &= lead;
    seen->modes |= lead + 0x20000;
    seen->end_some |= end;
    seen->end_all &= end;
    seen->first_some |= s[0];
    seen->first_all &= s[0];
}

static inline int right(const Seen *k) {
    return k->first_some == 8 && k->first_all == 8 && (k->lead_some & 0xFF00FF00) == 0x01000100 &&
           (k->lead_all & 0xFF00FF00) == 0x01000100 && ((k->lead_some | k->modes) & 0xF80000) == 0 &&
           (k->end_some & 0xFEFF00000000FFFE) == 0x0001000000000400 &&
           (k->end_all & 0x00FF00000000FF00) == 0x0001000000000400;
}

/* A table of meters by their addresses: one more than a place, 0 for none; what falls on a slot in use goes to the next. */
static inline size_t slot_of(uint64_t address) { return (size_t)(address * 0x9E3779B97F4A7C15u >> 56); }

/* The meters from `first` on: whether they are meters and none stands twice. *found is the place of the one asked for. */
static inline int judge_meters(const uint8_t *first, size_t count, uint8_t table[SLOTS], uint64_t asked, size_t *found) {
    Seen seen = nothing;
    const uint8_t *s = first;
    for (size_t i = 0; i < count; i++, s += SIZE) {
        uint64_t address = eight(s + 1);
        see(&seen, s);
        if (address == asked) *found = i;
        size_t slot = slot_of(address);
        for (; table[slot] != 0; slot = (slot + 1) % SLOTS)
            if (eight(first + SIZE * (table[slot] - 1u) + 1) == address) return 0;
        table[slot] = (uint8_t)(i + 1);
    }
    return count == 0 || right(&seen);
}

static inline int judge(const uint8_t *s, size_t len, uint8_t table[SLOTS], uint64_t asked, size_t *count, size_t *found) {
    if (len < ROOM) return len == 0 || s[0] == 2 ? 17 : 18;
    if (s[0] != 2) return 18;
    if (s[1] != 4 || s[6] != 1 || s[7] > MOST) return 17;
    *found = *count = s[7];
    memset(table, 0, SLOTS);
    return judge_meters(s + 8, *count, table, asked, found) ? 0 : 17;
}

static inline uint8_t answer(int number, uint64_t value, uint64_t *results) {
    results[0] = value;
    return (uint8_t)number;
}

uint8_t twin_store_empty(uint8_t *store, size_t store_len, uint64_t results[1]) {
    static const uint8_t none[8] = {2, 4, 0, 0, 64, 0, 1, 0};
    if (store_len < ROOM) return answer(4, 0, results);
    memcpy(store, none, sizeof none);
    return answer(0, 8, results);
}

uint8_t twin_store_add(uint8_t *store, size_t store_len, const uint8_t meter[8], uint8_t mode, uint8_t format,
                       uint64_t results[1]) {
    uint8_t table[SLOTS];
    size_t count, at;
    int refused = judge(store, store_len, table, eight(meter), &count, &at);
    if (refused) return answer(refused, 0, results);
    if (mode > 5 || format > 1) return answer(17, 0, results);
    if (at == MOST) return answer(22, 0, results);
    uint8_t *s = store + 8 + SIZE * at;
    if (at == count) {
        static const uint8_t fresh[SIZE] = {8, 0, 0, 0, 0, 0, 0, 0, 0, 1, 0, 1, 0, 4, 0, 0, 0, 0, 1, 1};
        memcpy(s, fresh, SIZE);
        memcpy(s + 1, meter, 8);
        store[7] = (uint8_t)++count;
    }
    s[10] = mode;
    s[12] = format;
    return answer(0, 8 + SIZE * count, results);
}

uint8_t twin_store_hear(uint8_t *store, size_t store_len, const uint8_t meter[8], uint32_t number, uint64_t results[1]) {
    uint8_t table[SLOTS];
    size_t count, at;
    int refused = judge(store, store_len, table, eight(meter), &count, &at);
    if (refused) return answer(refused, 0, results);
    if (at == count) return answer(19, 0, results);
    uint8_t *s = store + 8 + SIZE * at;
    if (number_at(s + 14) < number) put_number(s + 14, number);
    s[19] = 0;
    return answer(0, 8 + SIZE * count, results);
}

uint8_t twin_store_issue(uint8_t *store, size_t store_len, const uint8_t meter[8], uint64_t results[1]) {
    uint8_t table[SLOTS];
    size_t count, at;
    int refused = judge(store, store_len, table, eight(meter), &count, &at);
    if (refused) return answer(refused, 0, results);
    if (at == count) return answer(19, 0, results);
    uint8_t *s = store + 8 + SIZE * at;
    uint32_t last = number_at(s + 14);
    if (s[19]) return answer(20, 0, results);
    if (last == UINT32_MAX) return answer(21, 0, results);
    put_number(s + 14, last + 1);
    return answer(0, last + 1, results);
}

uint8_t twin_store_look_up(const uint8_t *store, size_t store_len, const uint8_t meter[8], uint64_t results[4]) {
    uint8_t table[SLOTS];
    size_t count, at;
    int refused = judge(store, store_len, table, eight(meter), &count, &at);
    results[1] = results[2] = results[3] = 0;
    if (refused) return answer(refused, 0, results);
    if (at == count) return answer(19, 0, results);
    const uint8_t *s = store + 8 + SIZE * at;
    results[1] = s[12];
    results[2] = number_at(s + 14);
    results[3] = s[19];
    return answer(0, s[10], results);
}

uint8_t twin_store_allowance(const uint8_t *store, size_t store_len, uint64_t results[1]) {
    uint8_t table[SLOTS];
    size_t count, at;
    int refused = judge(store, store_len, table, 0, &count, &at);
    return answer(refused, refused ? 0 : number_at(store + 2), results);
}

uint8_t twin_store_set_allowance(uint8_t *store, size_t store_len, uint32_t allowance, uint64_t results[1]) {
    uint8_t table[SLOTS];
    size_t count, at;
    int refused = judge(store, store_len, table, 0, &count, &at);
    if (refused) return answer(refused, 0, results);
    put_number(store + 2, allowance);
    return answer(0, 8 + SIZE * count, results);
}

uint8_t twin_store_write(const uint8_t *store, size_t store_len, uint8_t *out, size_t out_len, uint64_t results[1]) {
    uint8_t table[SLOTS];
    size_t count, at;
    int refused = judge(store, store_len, table, 0, &count, &at);
    if (refused) return answer(refused, 0, results);
    size_t size = 8 + SIZE * count;
    if (out_len < size) return answer(4, 0, results);
    memcpy(out, store, size);
    return answer(0, size, results);
}

/* The file's meters go into the same table: where one is found it is held, or new and behind the held ones. Only when all
 * are judged and counted is the store changed. */
uint8_t twin_store_restore(uint8_t *store, size_t store_len, const uint8_t *file, size_t file_len, uint64_t results[1]) {
    uint8_t table[SLOTS], seen[2 * MOST] = {0}, place[MOST];
    const uint8_t *where[2 * MOST];
    size_t count, at;
    int refused = judge(store, store_len, table, 0, &count, &at);
    if (refused) return answer(refused, 0, results);
    if (file_len == 0) return answer(17, 0, results);
    if (file[0] != 1 && file[0] != 2) return answer(18, 0, results);
    size_t head = file[0] == 2 ? 8 : 3;
    if (file_len < head || (head == 8 && file[1] != 4) || file[head - 2] != 1) return answer(17, 0, results);
    size_t n = file[head - 1], total = count;
    if (n > MOST || file_len != head + SIZE * n) return answer(17, 0, results);
    Seen common = nothing;
    const uint8_t *m = file + head;
    for (size_t i = 0; i < n; i++, m += SIZE) {
        uint64_t address = eight(m + 1);
        see(&common, m);
        size_t slot = slot_of(address), p = total;
        for (; table[slot] != 0; slot = (slot + 1) % SLOTS) {
            size_t held = table[slot] - 1u;
            if (eight((held < count ? store + 8 + SIZE * held : where[held]) + 1) == address) {
                p = held;
                break;
            }
        }
        if (p == total) {
            table[slot] = (uint8_t)(p + 1);
            where[p] = m;
            total++;
        }
        if (seen[p]) return answer(17, 0, results);
        seen[p] = 1;
        place[i] = (uint8_t)p;
    }
    if (n > 0 && !right(&common)) return answer(17, 0, results);
    if (total > MOST) return answer(22, 0, results);
    m = file + head;
    for (size_t i = 0; i < n; i++, m += SIZE) {
        uint8_t *s = store + 8 + SIZE * place[i];
        if (place[i] < count) {
            uint32_t theirs = number_at(m + 14);
            s[10] = m[10];
            s[12] = m[12];
            if (number_at(s + 14) < theirs) put_number(s + 14, theirs);
        } else {
            memcpy(s, m, SIZE - 1);
            s[19] = 1;
        }
    }
    if (head == 8) memcpy(store + 2, file + 2, 4);
    else put_number(store + 2, 16384);
    store[7] = (uint8_t)total;
    return answer(0, 8 + SIZE * total, results);
}
