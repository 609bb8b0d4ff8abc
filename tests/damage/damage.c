/* What damage to a frame is always seen, run on the built library.
 *
 * Sent is a frame that reading accepts. What comes has as many bytes, at least one bit of them inverted, and any bytes
 * behind. Bits count from the frame's first byte, highest bit first. Such damage must be refused if it is
 *   1. in format A, within 16 consecutive bits;
 *   2. in format B the same, with the length byte as it was;
 *   3. in format A, at most five bits, wherever they are;
 *   4. at most five bits within 151 consecutive ones, with the length byte as it was;
 *   5. an odd number of bits, with the length byte as it was;
 *   6. in some block within 16 consecutive bits, and in the others anything, with the length byte as it was.
 * The number is 1, 2 or 3, and it is 3 where the length byte is as it was. Lent memory stays, however much it is.
 *
 * The frames, their blocks and their checks are made here from the rules, without the library. So is a second reader,
 * which tells what must come out, and from which wrong readers are made: the test must find each of them out. */
#include "../../include/kusikhut.h"
#include <stdio.h>
#include <stdlib.h>
#include <string.h>

enum format { A, B };
enum {
    POLYNOMIAL = 0x13D65,  /* 17 bits; the check's own */
    SIX_BITS = 0x410053,   /* 23 bits, six of them set; a multiple of the polynomial */
    PERIOD = 151,          /* two bits so far apart are a multiple of the polynomial */
    LONGEST = 290,         /* bytes of the longest frame */
    MOST_BLOCKS = 17,
    MOST_BEHIND = 300,     /* bytes behind a frame, at most */
    SPARE = 4,             /* patterns are laid down in four bytes, the last of which may lie behind the frame */
    RECEIVED = LONGEST + MOST_BEHIND + SPARE,
    GUARD = 16,
    LENT = 300
};

static void fail(const char *what) {
    printf("tests/damage: FAILED: %s\n", what);
    exit(1);
}

static void must_be(const char *what, unsigned long count, unsigned long due) {
    if (count == due) return;
    printf("tests/damage: FAILED: %s: %lu, expected %lu\n", what, count, due);
    exit(1);
}

/* ---- Random numbers: splitmix64. ---- */

static uint64_t random_state;

static uint64_t random_number(void) {
    uint64_t z = random_state += 0x9E3779B97F4A7C15;
    z = (z ^ z >> 30) * 0xBF58476D1CE4E5B9;
    z = (z ^ z >> 27) * 0x94D049BB133111EB;
    return z ^ z >> 31;
}

static unsigned below(unsigned n) {
    return (unsigned)(random_number() % n);
}

static void fill(uint8_t *bytes, unsigned n) {
    for (unsigned i = 0; i < n; i++) bytes[i] = (uint8_t)below(256);
}

/* ---- Frames, from the rules. ---- */

/* The blocks of a frame by its length byte: where each ends, check included. No blocks: the length byte is refused. */
struct layout {
    unsigned blocks, size, content, ends[MOST_BLOCKS];
};

static struct layout layouts[2][256];

static void add_block(struct layout *layout, unsigned size) {
    layout->size += size;
    layout->ends[layout->blocks++] = layout->size;
}

static struct layout layout_a(unsigned l) {
    struct layout layout = {0};
    if (l < 10) return layout;
    layout.content = l;
    add_block(&layout, 1 + 9 + 2);
    for (unsigned body = l - 9; body > 0;) {
        unsigned part = body < 16 ? body : 16;
        add_block(&layout, part + 2);
        body -= part;
    }
    return layout;
}

static struct layout layout_b(unsigned l) {
    struct layout layout = {0};
    if (l < 12 || l == 128 || l == 129) return layout;
    add_block(&layout, l < 128 ? 1 + l : 128);
    if (l > 129) add_block(&layout, 1 + l - 128);
    layout.content = l - 2 * layout.blocks;
    return layout;
}

static void make_layouts(void) {
    for (unsigned l = 0; l < 256; l++) {
        layouts[A][l] = layout_a(l);
        layouts[B][l] = layout_b(l);
    }
}

static unsigned start_of(const struct layout *layout, unsigned block) {
    return block ? layout->ends[block - 1] : 0;
}

/* The block, from 0, in which a byte of the frame stands. */
static unsigned block_at(const struct layout *layout, unsigned byte) {
    unsigned block = 0;
    while (layout->ends[block] <= byte) block++;
    return block;
}

/* Bit by bit, on purpose: so the document has it. */
static unsigned check(const uint8_t *bytes, unsigned n) {
    unsigned reg = 0;
    for (unsigned bit = 0; bit < 8 * n; bit++) {
        unsigned next = bytes[bit / 8] >> (7 - bit % 8) & 1;
        reg = reg << 1 ^ next << 16;
        if (reg & 0x10000) reg ^= POLYNOMIAL;
    }
    return reg ^ 0xFFFF;
}

static unsigned block_check(const struct layout *layout, const uint8_t *bytes, unsigned block) {
    unsigned start = start_of(layout, block);
    return check(bytes + start, layout->ends[block] - 2 - start);
}

/* Writes the right check of a block, but only those bytes of it that stand at place `from` or behind. */
static void seal_from(const struct layout *layout, uint8_t *bytes, unsigned block, unsigned from) {
    unsigned value = block_check(layout, bytes, block), end = layout->ends[block];
    if (end - 2 >= from) bytes[end - 2] = (uint8_t)(value >> 8);
    if (end - 1 >= from) bytes[end - 1] = (uint8_t)value;
}

static void seal(const struct layout *layout, uint8_t *bytes, unsigned block) {
    seal_from(layout, bytes, block, 0);
}

struct frame {
    enum format format;
    const struct layout *layout;
    uint8_t bytes[LONGEST];
};

static unsigned bits_of(const struct frame *frame) {
    return 8 * frame->layout->size;
}

/* The first bit that damage may touch where all 16 bits count: in B the length byte is left out. */
static unsigned first_bit(enum format format) {
    return format == A ? 0 : 8;
}

static struct frame make_frame(enum format format, const uint8_t *content, unsigned n) {
    unsigned l = format == A ? n : n <= 125 ? n + 2 : n + 4;
    struct frame frame = {format, &layouts[format][l], {(uint8_t)l}};
    for (unsigned block = 0; block < frame.layout->blocks; block++) {
        unsigned at = block ? start_of(frame.layout, block) : 1, data = frame.layout->ends[block] - 2 - at;
        memcpy(frame.bytes + at, content, data);
        content += data;
        seal(frame.layout, frame.bytes, block);
    }
    return frame;
}

static struct frame random_frame(enum format format, unsigned n) {
    uint8_t content[255];
    fill(content, n);
    return make_frame(format, content, n);
}

static void take_content(const struct layout *layout, const uint8_t *bytes, uint8_t *out) {
    for (unsigned block = 0; block < layout->blocks; block++) {
        unsigned at = block ? start_of(layout, block) : 1, data = layout->ends[block] - 2 - at;
        memcpy(out, bytes + at, data);
        out += data;
    }
}

/* ---- Readers. ---- */

/* The library, the own reader, and wrong ones made of it. Every one of them accepts every good frame. */
enum reader {
    LIBRARY,
    OWN,
    SKIPS_FIRST,
    SKIPS_LAST,
    SKIPS_SEVENTEENTH,
    HIGH_BYTE_ONLY,
    LOW_BYTE_ONLY,
    LAST_BIT_IGNORED,
    ROOM_FIRST,
    WRITES_EARLY,
    BLOCKS_FROM_ZERO
};

static int block_is_right(enum reader reader, const struct layout *layout, const uint8_t *bytes, unsigned block) {
    unsigned end = layout->ends[block];
    unsigned differs = block_check(layout, bytes, block) ^ (unsigned)(bytes[end - 2] << 8 | bytes[end - 1]);
    switch (reader) {
    case SKIPS_FIRST: return block == 0 || differs == 0;
    case SKIPS_LAST: return block + 1 == layout->blocks || differs == 0;
    case SKIPS_SEVENTEENTH: return block == 16 || differs == 0;
    case HIGH_BYTE_ONLY: return differs >> 8 == 0;
    case LOW_BYTE_ONLY: return (differs & 0xFF) == 0;
    case LAST_BIT_IGNORED: return differs >> 1 == 0;
    default: return differs == 0;
    }
}

static uint8_t own_read(enum reader reader, enum format format, const uint8_t *bytes, size_t len,
                        uint8_t *out, size_t out_len, uint64_t results[3]) {
    results[0] = results[1] = results[2] = 0;
    if (len == 0) return 1;
    const struct layout *layout = &layouts[format][bytes[0]];
    if (layout->blocks == 0) return 2;
    if (len < layout->size) return 1;
    if (reader == ROOM_FIRST && out_len < layout->content) return 4;
    if (reader == WRITES_EARLY && out_len >= layout->content) take_content(layout, bytes, out);
    for (unsigned block = 0; block < layout->blocks; block++) {
        if (block_is_right(reader, layout, bytes, block)) continue;
        results[2] = reader == BLOCKS_FROM_ZERO ? block : block + 1;
        return 3;
    }
    if (out_len < layout->content) return 4;
    take_content(layout, bytes, out);
    results[0] = layout->size;
    results[1] = layout->content;
    return 0;
}

static uint8_t read_by(enum reader reader, enum format format, const uint8_t *bytes, size_t len,
                       uint8_t *out, size_t out_len, uint64_t results[3]) {
    if (reader != LIBRARY) return own_read(reader, format, bytes, len, out, out_len, results);
    return (format == A ? kusikhut_read_a : kusikhut_read_b)(bytes, len, out, out_len, results);
}

/* ---- Judging. ---- */

/* Lent memory with guard bytes before and behind it, and what must stand in all of it. */
static uint8_t lent[GUARD + LENT + GUARD], lent_before[GUARD + LENT + GUARD];

/* An answer to damage: its number, and for 3 the first wrong block from 1, else 0. */
struct answer {
    unsigned number, block;
};

enum verdict { FINE, UNSEEN, OTHER_ANSWER, MEMORY_CHANGED, VERDICTS };
static const char *const verdict_names[VERDICTS] = {
    "fine", "damage went unseen", "another answer was due", "a refusal changed lent memory"};

static enum reader subject = LIBRARY;     /* who is judged now */
static unsigned long verdicts[VERDICTS];  /* of the subject */
static unsigned long answers[2][256];     /* the library's, by format and number, to damage that must be seen */

static void restore_lent(void) {
    memcpy(lent, lent_before, sizeof lent);
}

static void print_bytes(const char *name, const uint8_t *bytes, unsigned n) {
    printf("  %s, %u bytes: ", name, n);
    for (unsigned i = 0; i < n; i++) printf("%02X", bytes[i]);
    printf("\n");
}

static void print_answer(const char *name, unsigned number, const uint64_t results[3]) {
    printf("  %s: %u, results %llu %llu %llu\n", name, number, (unsigned long long)results[0],
           (unsigned long long)results[1], (unsigned long long)results[2]);
}

/* Prints what was sent, what came, and what the own reader and the subject say of it, and ends the test. */
static void fail_at(const char *what, const struct frame *sent, const uint8_t *got, unsigned len, unsigned lent_len) {
    uint8_t out[LENT];
    uint64_t results[3];
    print_bytes(sent->format == A ? "sent in format A" : "sent in format B", sent->bytes, sent->layout->size);
    print_bytes("came", got, len);
    printf("  lent: %u bytes\n", lent_len);
    unsigned same = 0;
    while (same < sizeof lent && lent[same] == lent_before[same]) same++;
    if (same < sizeof lent) printf("  first lent byte that changed: %d\n", (int)same - GUARD);
    print_answer("expected", own_read(OWN, sent->format, got, len, out, lent_len, results), results);
    print_answer("answer", read_by(subject, sent->format, got, len, lent + GUARD, lent_len, results), results);
    fail(what);
}

/* 4 comes after the checks. So it says, as 0 does, that they were found right. */
static enum verdict judge_answer(unsigned number, const uint64_t results[3], struct answer due) {
    if (number == 0 || number == 4) return UNSEEN;
    if (number != due.number || results[0] || results[1] || results[2] != due.block) return OTHER_ANSWER;
    return memcmp(lent, lent_before, sizeof lent) ? MEMORY_CHANGED : FINE;
}

/* Has the subject read damage that must be seen. For the library anything but the answer due ends the test. */
static void judge(const struct frame *sent, const uint8_t *got, unsigned len, unsigned lent_len, struct answer due) {
    uint64_t results[3] = {~0ull, ~0ull, ~0ull};
    unsigned number = read_by(subject, sent->format, got, len, lent + GUARD, lent_len, results);
    enum verdict verdict = judge_answer(number, results, due);
    verdicts[verdict]++;
    if (subject == LIBRARY) {
        answers[sent->format][number]++;
        if (verdict != FINE) fail_at(verdict_names[verdict], sent, got, len, lent_len);
    } else if (verdict != FINE) {
        restore_lent();
    }
}

/* The subject must accept what was sent, or damage to it would mean nothing. */
static void must_accept(const struct frame *sent) {
    uint8_t due[sizeof lent];
    uint64_t results[3];
    unsigned n = sent->layout->content;
    memcpy(due, lent_before, sizeof due);
    take_content(sent->layout, sent->bytes, due + GUARD);
    unsigned number = read_by(subject, sent->format, sent->bytes, sent->layout->size, lent + GUARD, n, results);
    if (number || results[0] != sent->layout->size || results[1] != n || results[2] || memcmp(lent, due, sizeof due))
        fail_at("a good frame was not read as it is", sent, sent->bytes, sent->layout->size, n);
    restore_lent();
}

/* ---- Laying damage down. ---- */

/* Inverts the bits of a pattern of at most 25 bits, its highest one at bit `place`. */
static void invert(uint8_t *bytes, unsigned place, unsigned pattern, unsigned width) {
    uint32_t laid = (uint32_t)pattern << (32 - width - place % 8);
    for (unsigned i = 0; i < 4; i++) bytes[place / 8 + i] ^= (uint8_t)(laid >> (24 - 8 * i));
}

static void flip(uint8_t *bytes, unsigned bit) {
    bytes[bit / 8] ^= (uint8_t)(0x80 >> bit % 8);
}

static int is_set(const uint8_t *bytes, unsigned bit) {
    return bytes[bit / 8] >> (7 - bit % 8) & 1;
}

/* Behind a damaged A frame whose length byte grew: bytes made so that every later block has a right check, as far as
 * the check is not among the bytes that came. Then only the first block's check is left to refuse it. Gives how many
 * bytes there are now. */
static unsigned fit_behind(uint8_t *got, unsigned size) {
    const struct layout *longer = &layouts[A][got[0]];
    if (longer->size <= size) return size;
    fill(got + size, longer->size - size);
    for (unsigned block = 1; block < longer->blocks; block++) seal_from(longer, got, block, size);
    return longer->size;
}

/* ---- All damage of a kind to one frame. ---- */

/* The bytes that fit behind the frame at work, by the new length byte. Made once, since fitting is slow. */
static struct {
    unsigned len;
    uint8_t bytes[LONGEST];
} fitting[256];

static void start_work(const struct frame *sent, uint8_t *got) {
    unsigned size = sent->layout->size;
    must_accept(sent);
    for (unsigned l = 0; l < 256 && sent->format == A; l++) {
        memcpy(got, sent->bytes, size);
        got[0] = (uint8_t)l;
        fitting[l].len = fit_behind(got, size) - size;
        memcpy(fitting[l].bytes, got + size, fitting[l].len);
    }
    memset(got, 0, RECEIVED);
    memcpy(got, sent->bytes, size);
}

/* Laying damage down and taking it away again must have led back to what was sent. */
static void end_work(const struct frame *sent, const uint8_t *got) {
    if (memcmp(sent->bytes, got, sent->layout->size)) fail("reading changed the bytes that it was to read");
}

/* The answer due to damage of promises 1 to 4. Every block in which it lies is wrong, so the first one is found. With
 * another length byte that is block 1, whose size never changes. */
static struct answer due_answer(const struct frame *sent, const uint8_t *got, unsigned len, unsigned first) {
    const struct layout *layout = &layouts[sent->format][got[0]];
    if (got[0] == sent->bytes[0]) return (struct answer){3, block_at(layout, first / 8) + 1};
    if (layout->blocks == 0) return (struct answer){2, 0};
    if (len < layout->size) return (struct answer){1, 0};
    return (struct answer){3, 1};
}

/* The amounts of memory that are lent by turns: none, and one less than, as much as and more than a content needs. */
static unsigned lent_by_turns(void) {
    static const unsigned amounts[5] = {0, 9, 10, 15, LENT};
    static unsigned turn;
    turn = turn == 4 ? 0 : turn + 1;
    return amounts[turn];
}

/* Reads one damaged frame with nothing behind, and if the length byte changed, also with the fitting bytes behind. */
static void read_damaged(const struct frame *sent, uint8_t *got, unsigned first) {
    unsigned len = sent->layout->size, l = got[0];
    judge(sent, got, len, lent_by_turns(), due_answer(sent, got, len, first));
    if (l == sent->bytes[0] || fitting[l].len == 0) return;
    memcpy(got + len, fitting[l].bytes, fitting[l].len);
    len += fitting[l].len;
    judge(sent, got, len, lent_by_turns(), due_answer(sent, got, len, first));
}

/* Promises 1 and 2: every set of bits within 16 consecutive ones, each once, by its first bit and the bits behind. */
static void all_bursts(const struct frame *sent) {
    uint8_t got[RECEIVED];
    unsigned total = bits_of(sent);
    start_work(sent, got);
    for (unsigned place = first_bit(sent->format); place < total; place++) {
        unsigned width = total - place < 16 ? total - place : 16;
        for (unsigned pattern = 1u << (width - 1); pattern < 1u << width; pattern++) {
            invert(got, place, pattern, width);
            read_damaged(sent, got, place);
            invert(got, place, pattern, width);
        }
    }
    end_work(sent, got);
}

/* Inverts one to `most` more bits from bit `from` on, below bit `to`, behind those that are inverted already. */
static void more_bits(const struct frame *sent, uint8_t *got, unsigned first, unsigned from, unsigned to,
                      unsigned most) {
    for (unsigned bit = from; bit < to; bit++) {
        flip(got, bit);
        read_damaged(sent, got, first);
        if (most > 1) more_bits(sent, got, first, bit + 1, to, most - 1);
        flip(got, bit);
    }
}

/* Promises 3 and 4: every set of one to `most` bits, in A anywhere, in B within 151 bits behind the length byte. */
static void all_few_bits(const struct frame *sent, unsigned most) {
    uint8_t got[RECEIVED];
    unsigned total = bits_of(sent);
    start_work(sent, got);
    for (unsigned first = first_bit(sent->format); first < total; first++) {
        unsigned to = sent->format == B && total - first > PERIOD ? first + PERIOD : total;
        flip(got, first);
        read_damaged(sent, got, first);
        if (most > 1) more_bits(sent, got, first, first + 1, to, most - 1);
        flip(got, first);
    }
    end_work(sent, got);
}

/* ---- Random damage to random frames. ---- */

/* The bits to be inverted; first, last and how many, once they are counted. */
struct damage {
    uint8_t mask[LONGEST + SPARE];
    unsigned first, last, count;
};

static void count_bits(struct damage *damage, unsigned total) {
    damage->count = 0;
    for (unsigned bit = 0; bit < total; bit++) {
        if (damage->mask[bit / 8] == 0) bit |= 7; /* none in this byte: on to the next */
        if (!is_set(damage->mask, bit)) continue;
        if (damage->count++ == 0) damage->first = bit;
        damage->last = bit;
    }
}

/* Promises 1 to 4, word by word. */
static int is_close_or_few(enum format format, const struct damage *damage) {
    unsigned within = damage->last - damage->first + 1;
    int length_stays = damage->first >= 8;
    if (damage->count == 0) return 0;
    if (within <= 16 && (format == A || length_stays)) return 1;
    if (damage->count <= 5 && format == A) return 1;
    return damage->count <= 5 && within <= 151 && length_stays;
}

/* Promise 6: whether the bits of some block lie within 16. */
static int has_burst_in_a_block(const struct layout *layout, const struct damage *damage) {
    for (unsigned block = 0; block < layout->blocks; block++) {
        unsigned count = 0, first = 0, last = 0;
        for (unsigned bit = 8 * start_of(layout, block); bit < 8 * layout->ends[block]; bit++) {
            if (!is_set(damage->mask, bit)) continue;
            if (count++ == 0) first = bit;
            last = bit;
        }
        if (count > 0 && last - first < 16) return damage->first >= 8;
    }
    return 0;
}

/* All six. */
static int is_promised(enum format format, const struct layout *layout, const struct damage *damage) {
    return is_close_or_few(format, damage) || (damage->count % 2 == 1 && damage->first >= 8) ||
           has_burst_in_a_block(layout, damage);
}

/* A bit of the frame, not before bit `from`. Most are near an edge: the first 24 bits, where a check begins or a block
 * ends (in B's long frames bytes 126 and 128), the last 16 bits. */
static unsigned some_bit(const struct layout *layout, unsigned from) {
    unsigned total = 8 * layout->size, bit;
    do {
        unsigned draw = below(8);
        if (draw < 2) bit = below(24);
        else if (draw < 5) bit = 8 * (layout->ends[below(layout->blocks)] - 2 * below(2)) - 16 + below(32);
        else if (draw < 6) bit = total - 1 - below(16);
        else bit = below(total);
    } while (bit < from || bit >= total);
    return bit;
}

/* Promises 1 and 2. */
static void some_burst(const struct layout *layout, uint8_t *mask, unsigned from) {
    unsigned place = some_bit(layout, from), left = 8 * layout->size - place, width = left < 16 ? left : 16;
    unsigned highest = 1u << (width - 1);
    invert(mask, place, highest | below(highest), width);
}

/* Sets a bit, and gives 1, unless it is set already. */
static unsigned set_new(uint8_t *mask, unsigned bit) {
    if (is_set(mask, bit)) return 0;
    flip(mask, bit);
    return 1;
}

/* Promise 3. */
static void few_bits_anywhere(const struct layout *layout, uint8_t *mask) {
    for (unsigned left = 1 + below(5); left > 0;) left -= set_new(mask, some_bit(layout, 0));
}

/* Promise 4. Often the first and the last bit of the 151 are among them. */
static void few_bits_together(const struct layout *layout, uint8_t *mask) {
    unsigned total = 8 * layout->size, window = total - 8 < PERIOD ? total - 8 : PERIOD, left = 1 + below(5);
    unsigned bit = some_bit(layout, 8), back = below(window), start = bit - 8 > back ? bit - back : 8;
    if (start > total - window) start = total - window;
    if (left >= 2 && below(2)) left -= set_new(mask, start) + set_new(mask, start + window - 1);
    while (left > 0) left -= set_new(mask, start + below(window));
}

/* The polynomial somewhere in each block, which no check sees. The length byte is left alone. */
static void unseen_in_every_block(const struct layout *layout, uint8_t *mask) {
    for (unsigned block = 0; block < layout->blocks; block++) {
        unsigned start = block ? 8 * start_of(layout, block) : 8, places = 8 * layout->ends[block] - start - 16;
        invert(mask, start + below(places), POLYNOMIAL, 17);
    }
}

/* Promise 5: a few bits, noise all over, or one bit besides damage that nobody sees. */
static void odd_bits(const struct layout *layout, uint8_t *mask) {
    struct damage noise = {{0}, 0, 0, 0};
    switch (below(3)) {
    case 0:
        for (unsigned left = 1 + 2 * below(10); left > 0;) left -= set_new(mask, some_bit(layout, 8));
        break;
    case 1:
        fill(noise.mask + 1, layout->size - 1);
        count_bits(&noise, 8 * layout->size);
        memcpy(mask, noise.mask, layout->size);
        if (noise.count % 2 == 0) flip(mask, some_bit(layout, 8));
        break;
    default:
        unseen_in_every_block(layout, mask);
        flip(mask, some_bit(layout, 8));
    }
}

/* Promise 6: a burst in one block; in all others noise, or damage that nobody sees. */
static void burst_in_one_block(const struct layout *layout, uint8_t *mask) {
    unsigned block = below(layout->blocks), start = start_of(layout, block), end = layout->ends[block];
    if (below(2)) fill(mask + 1, layout->size - 1);
    else unseen_in_every_block(layout, mask);
    memset(mask + start, 0, end - start);
    unsigned from = block ? 8 * start : 8, place = from + below(8 * end - from), left = 8 * end - place;
    unsigned width = left < 16 ? left : 16, highest = 1u << (width - 1);
    invert(mask, place, highest | below(highest), width);
}

static struct damage some_damage(enum format format, const struct layout *layout) {
    struct damage damage = {{0}, 0, 0, 0};
    unsigned draw = below(9);
    if (draw < 4) some_burst(layout, damage.mask, first_bit(format));
    else if (draw < 5 && format == A) few_bits_anywhere(layout, damage.mask);
    else if (draw < 6) few_bits_together(layout, damage.mask);
    else if (draw < 8) odd_bits(layout, damage.mask);
    else burst_in_one_block(layout, damage.mask);
    count_bits(&damage, 8 * layout->size);
    if (!is_promised(format, layout, &damage)) fail("the test made damage that no promise covers");
    return damage;
}

/* Makes an A frame in which, if its length byte shrinks to l, the last block that is left has a right check, too: two
 * content bytes are that check. Nothing is done if the frame has no room for it. */
static void set_trap(struct frame *frame, unsigned l) {
    const struct layout *shorter = &layouts[A][l];
    if (l >= frame->bytes[0] || shorter->blocks < 2) return;
    unsigned block = shorter->blocks - 1;
    if (shorter->ends[block] + 2 > frame->layout->ends[block]) return;
    seal(shorter, frame->bytes, block);
    seal(frame->layout, frame->bytes, block);
}

/* Nothing, random bytes, or fitting ones, now and then without the last. Gives how many bytes there are then. */
static unsigned put_behind(enum format format, uint8_t *got, unsigned size) {
    unsigned draw = below(3), more = 1 + below(MOST_BEHIND);
    if (draw == 0) return size;
    if (draw == 1 || format == B) {
        fill(got + size, more);
        return size + more;
    }
    unsigned len = fit_behind(got, size);
    return len > size && below(4) == 0 ? len - 1 : len;
}

/* The own reader's answer. It must itself be as promised, or the test is wrong. */
static struct answer own_answer(const struct frame *sent, const uint8_t *got, unsigned len) {
    uint8_t out[LENT];
    uint64_t results[3];
    unsigned number = own_read(OWN, sent->format, got, len, out, sizeof out, results);
    if (number < 1 || number > 3 || (got[0] == sent->bytes[0] && number != 3))
        fail_at("the own reader breaks the promise", sent, got, len, LENT);
    return (struct answer){number, (unsigned)results[2]};
}

/* The parts that go through all damage judge by due_answer, the random part by the own reader. They must agree. */
static void rule_must_agree(const struct frame *sent, const uint8_t *got, unsigned len, unsigned first,
                            struct answer own) {
    struct answer due = due_answer(sent, got, len, first);
    if (due.number != own.number || due.block != own.block)
        fail_at("the test's rule and its own reader differ", sent, got, len, LENT);
}

/* How often the length byte changed, to a smaller and to a larger one, and only the first block's check was wrong. */
static unsigned long only_first_wrong[2];

static void count_only_first_wrong(const struct frame *sent, const uint8_t *got, unsigned len) {
    uint8_t out[LENT];
    uint64_t results[3];
    if (got[0] == sent->bytes[0] || subject != LIBRARY) return;
    if (own_read(SKIPS_FIRST, sent->format, got, len, out, sizeof out, results) == 0)
        only_first_wrong[got[0] > sent->bytes[0]]++;
}

/* An amount of memory to lend for n bytes. */
static unsigned some_amount(unsigned n) {
    unsigned draw = below(4);
    return draw == 0 ? n - 1 : draw == 1 ? n : draw == 2 ? LENT : below(LENT + 1);
}

static void random_round(enum format format, unsigned n) {
    uint8_t got[RECEIVED];
    struct frame sent = random_frame(format, n);
    unsigned size = sent.layout->size;
    struct damage damage = some_damage(format, sent.layout);
    if (format == A) set_trap(&sent, sent.bytes[0] ^ damage.mask[0]);
    must_accept(&sent);
    for (unsigned i = 0; i < size; i++) got[i] = sent.bytes[i] ^ damage.mask[i];
    unsigned len = put_behind(format, got, size);
    struct answer due = own_answer(&sent, got, len);
    if (is_close_or_few(format, &damage)) rule_must_agree(&sent, got, len, damage.first, due);
    count_only_first_wrong(&sent, got, len);
    judge(&sent, got, len, 0, due);
    judge(&sent, got, len, some_amount(n), due);
}

static void random_rounds(enum format format, unsigned rounds) {
    unsigned most = format == A ? 255 : 251;
    for (unsigned n = 10; n <= most; n++)
        for (unsigned round = 0; round < rounds; round++) random_round(format, n);
}

/* ---- Wrong readers. ---- */

/* The wrong readers, and what the judging must see of each. */
static const struct {
    enum reader reader;
    const char *name;
    enum verdict due;
} wrong_readers[] = {
    {SKIPS_FIRST, "skips the check of the first block", UNSEEN},
    {SKIPS_LAST, "skips the check of the last block", UNSEEN},
    {SKIPS_SEVENTEENTH, "skips the check of the seventeenth block", UNSEEN},
    {HIGH_BYTE_ONLY, "compares only the high byte of a check", UNSEEN},
    {LOW_BYTE_ONLY, "compares only the low byte of a check", UNSEEN},
    {LAST_BIT_IGNORED, "ignores the last bit of a check", UNSEEN},
    {ROOM_FIRST, "judges the lent memory before the checks", UNSEEN},
    {WRITES_EARLY, "writes the content before the checks", MEMORY_CHANGED},
    {BLOCKS_FROM_ZERO, "counts wrong blocks from 0", OTHER_ANSWER},
};
enum { WRONG_READERS = sizeof wrong_readers / sizeof *wrong_readers };

static void must_be_found_out(unsigned which, const char *part) {
    if (verdicts[wrong_readers[which].due] > 0) return;
    printf("tests/damage: FAILED: %s: a reader that %s was not found out\n", part, wrong_readers[which].name);
    exit(1);
}

/* Judges a wrong reader by all single bits of a long frame and all pairs of a short one, then by random damage. Both
 * must find it out. */
static void judge_wrong_reader(unsigned which, const struct frame *short_one, const struct frame *long_one) {
    subject = wrong_readers[which].reader;
    if (subject == SKIPS_SEVENTEENTH && short_one->format == B) return; /* B has no such block */
    memset(verdicts, 0, sizeof verdicts);
    all_few_bits(long_one, 1);
    all_few_bits(short_one, 2);
    must_be_found_out(which, "all damage");
    memset(verdicts, 0, sizeof verdicts);
    random_rounds(short_one->format, 20);
    must_be_found_out(which, "random damage");
}

static void judge_wrong_readers(const struct frame *short_a, const struct frame *short_b) {
    struct frame long_a = random_frame(A, 255), long_b = random_frame(B, 251);
    for (unsigned which = 0; which < WRONG_READERS; which++) {
        judge_wrong_reader(which, short_a, &long_a);
        judge_wrong_reader(which, short_b, &long_b);
    }
    subject = LIBRARY;
}

/* ---- What goes unseen. ---- */

static unsigned long further_reads;  /* those made here, also of damage that no promise covers */

/* Damage that is accepted must be covered by no promise, and must be read as the own reader does. */
static void must_be_beyond(const struct frame *sent, const uint8_t *got, unsigned len, const uint64_t results[3]) {
    uint8_t due[sizeof lent];
    uint64_t own_results[3];
    struct damage damage = {{0}, 0, 0, 0};
    for (unsigned i = 0; i < sent->layout->size; i++) damage.mask[i] = sent->bytes[i] ^ got[i];
    count_bits(&damage, bits_of(sent));
    if (is_promised(sent->format, sent->layout, &damage)) fail_at(verdict_names[UNSEEN], sent, got, len, LENT);
    memcpy(due, lent_before, sizeof due);
    if (own_read(OWN, sent->format, got, len, due + GUARD, LENT, own_results) != 0 ||
        memcmp(results, own_results, sizeof own_results) || memcmp(lent, due, sizeof due))
        fail_at("accepted damage is not read as the own reader does", sent, got, len, LENT);
    restore_lent();
}

/* Tells whether the library accepts damage. If not, the number must still be 1, 2 or 3, and lent memory stays. */
static int goes_unseen(const struct frame *sent, const uint8_t *got, unsigned len) {
    uint64_t results[3];
    unsigned number = read_by(LIBRARY, sent->format, got, len, lent + GUARD, LENT, results);
    further_reads++;
    if (number == 0) {
        must_be_beyond(sent, got, len, results);
        return 1;
    }
    if (number > 3 || (got[0] == sent->bytes[0] && number != 3) || results[0] || results[1])
        fail_at(verdict_names[OTHER_ANSWER], sent, got, len, LENT);
    if (memcmp(lent, lent_before, sizeof lent)) fail_at(verdict_names[MEMORY_CHANGED], sent, got, len, LENT);
    return 0;
}

/* Whether bits lie inside one block, behind the length byte. */
static int inside_one_block(const struct layout *layout, unsigned first, unsigned last) {
    return first >= 8 && block_at(layout, first / 8) == block_at(layout, last / 8);
}

/* A multiple of the polynomial? Only such damage to a block leaves its check right. */
static int is_multiple(unsigned pattern) {
    for (unsigned bit = 31; bit >= 16; bit--)
        if (pattern >> bit & 1) pattern ^= (unsigned)POLYNOMIAL << (bit - 16);
    return pattern == 0;
}

/* All patterns of exactly 17 bits at every place: unseen goes the polynomial inside a block, and nothing else. */
static unsigned long unseen_of_17_bits(const struct frame *sent) {
    uint8_t got[RECEIVED];
    unsigned size = sent->layout->size;
    unsigned long count = 0;
    start_work(sent, got);
    for (unsigned place = first_bit(sent->format); place + 17 <= bits_of(sent); place++) {
        for (unsigned pattern = 0x10001; pattern < 0x20000; pattern += 2) {
            int due = pattern == POLYNOMIAL && inside_one_block(sent->layout, place, place + 16);
            invert(got, place, pattern, 17);
            if (goes_unseen(sent, got, size) != due)
                fail_at("17 bits: not just the polynomial inside a block goes unseen", sent, got, size, LENT);
            invert(got, place, pattern, 17);
            count += (unsigned)due;
        }
    }
    return count;
}

/* The polynomial over the length byte of an A frame, with fitting bytes behind. */
static unsigned long unseen_over_length_byte(const struct frame *sent) {
    uint8_t got[RECEIVED];
    unsigned long count = 0;
    start_work(sent, got);
    for (unsigned place = 0; place < 8; place++) {
        invert(got, place, POLYNOMIAL, 17);
        count += (unsigned)goes_unseen(sent, got, fit_behind(got, sent->layout->size));
        invert(got, place, POLYNOMIAL, 17);
    }
    return count;
}

/* The pattern of six bits, at every place. */
static unsigned long unseen_six_bits(const struct frame *sent) {
    uint8_t got[RECEIVED];
    unsigned long count = 0;
    start_work(sent, got);
    for (unsigned place = 0; place + 23 <= bits_of(sent); place++) {
        invert(got, place, SIX_BITS, 23);
        count += (unsigned)goes_unseen(sent, got, sent->layout->size);
        invert(got, place, SIX_BITS, 23);
    }
    return count;
}

static unsigned ones(unsigned pattern) {
    unsigned count = 0;
    for (; pattern != 0; pattern >>= 1) count += pattern & 1;
    return count;
}

/* All damage there is to the last block of the shortest A frame, which has 24 bits. Gives how much of it went unseen,
 * and how much of that is six bits. */
static void unseen_in_last_block(const struct frame *sent, unsigned long *all, unsigned long *six) {
    uint8_t got[RECEIVED];
    unsigned size = sent->layout->size;
    *all = *six = 0;
    start_work(sent, got);
    for (unsigned pattern = 1; pattern < 1u << 24; pattern++) {
        invert(got, 8 * 12, pattern, 24);
        int unseen = goes_unseen(sent, got, size);
        if (unseen != is_multiple(pattern))
            fail_at("the last block: not just the multiples of the polynomial go unseen", sent, got, size, LENT);
        invert(got, 8 * 12, pattern, 24);
        *all += (unsigned)unseen;
        *six += (unsigned)(unseen && ones(pattern) == 6);
    }
}

/* All pairs of bits behind the length byte, or only those at one distance (0: all). Unseen go those inside a block at a
 * multiple of 151, and nothing else. */
static unsigned long unseen_pairs(const struct frame *sent, unsigned distance) {
    uint8_t got[RECEIVED];
    unsigned size = sent->layout->size;
    unsigned long count = 0;
    start_work(sent, got);
    for (unsigned first = 8; first < bits_of(sent); first++) {
        for (unsigned last = first + 1; last < bits_of(sent); last++) {
            if (distance != 0 && last - first != distance) continue;
            int due = (last - first) % PERIOD == 0 && inside_one_block(sent->layout, first, last);
            flip(got, first);
            flip(got, last);
            if (goes_unseen(sent, got, size) != due)
                fail_at("pairs: not just those 151 apart go unseen", sent, got, size, LENT);
            flip(got, first);
            flip(got, last);
            count += (unsigned)due;
        }
    }
    return count;
}

/* Each single bit of the length byte. */
static unsigned long unseen_in_length_byte(const struct frame *sent) {
    uint8_t got[RECEIVED];
    unsigned long count = 0;
    start_work(sent, got);
    for (unsigned bit = 0; bit < 8; bit++) {
        flip(got, bit);
        count += (unsigned)goes_unseen(sent, got, sent->layout->size);
        flip(got, bit);
    }
    return count;
}

static const uint8_t content[15] = {0x44, 0xAE, 0x0C, 0x78, 0x56, 0x34, 0x12, 0x01, 0x07,
                                    0x78, 0x0B, 0x13, 0x43, 0x65, 0x87};

/* A content of twelve bytes for B that ends in the check of a frame with ten. */
static const uint8_t holds_a_frame[12] = {0x44, 0xAE, 0x0C, 0x78, 0x56, 0x34, 0x12, 0x01, 0x07, 0x78, 0xEC, 0xE5};

/* The polynomial has 17 bits. In the shortest A frame, blocks of 96 and 24 bits, the first 8 of them the length byte:
 * 88 - 16 and 24 - 16 places. In Annex C.2's, blocks of 96 and 64 bits: 72 and 48. In the shortest B frame, one block
 * of 104 bits: 96 - 16. */
static void limits_of_bursts(const struct frame *short_a, const struct frame *annex_a, const struct frame *short_b) {
    must_be("13D65h in the shortest A frame", unseen_of_17_bits(short_a), 80);
    must_be("13D65h in Annex C.2's frame", unseen_of_17_bits(annex_a), 120);
    must_be("13D65h in the shortest B frame", unseen_of_17_bits(short_b), 80);
    /* At places 0 to 7 the length byte 0Ah becomes 94h, 45h, 2Dh, 19h, 03h, 0Eh, 08h, 0Bh. 03h and 08h are refused; at
     * 0Bh one byte of the second check is among those that came, so it cannot be made right. */
    must_be("13D65h over the length byte of A", unseen_over_length_byte(short_a), 5);
}

/* 410053h has 23 bits: 88 - 22 and 24 - 22 places. Of 24 bits, 255 patterns are multiples of the polynomial; those with
 * six bits are 410053h at its two places. */
static void limits_of_few_bits(const struct frame *short_a) {
    unsigned long all, six;
    must_be("410053h in the shortest A frame", unseen_six_bits(short_a), 68);
    unseen_in_last_block(short_a, &all, &six);
    must_be("all damage to the last block", all, 255);
    must_be("six bits of the last block", six, 2);
}

/* The longest B block has 1024 bits. Behind the length byte 1016 - 151 pairs are 151 apart; with 302 to 906 there are
 * 6 * 1016 - (1 + 2 + 3 + 4 + 5 + 6) * 151. The second block of the longest frame has 1024 - 151 besides. */
static void limits_of_b(void) {
    struct frame holder = make_frame(B, holds_a_frame, 12);
    struct frame one_block = random_frame(B, 125), two_blocks = random_frame(B, 251);
    must_be("one bit of B's length byte", unseen_in_length_byte(&holder), 1);
    must_be("pairs of B's longest block that are 151 apart", unseen_pairs(&one_block, PERIOD), 865);
    must_be("pairs of B's longest block", unseen_pairs(&one_block, 0), 2925);
    must_be("pairs of B's longest frame that are 151 apart", unseen_pairs(&two_blocks, PERIOD), 865 + 873);
}

/* ---- The whole. ---- */

/* The own frames must be those of the documents. */
static void documents_agree(void) {
    static const uint8_t annex_a[20] = {0x0F, 0x44, 0xAE, 0x0C, 0x78, 0x56, 0x34, 0x12, 0x01, 0x07,
                                        0x44, 0x47, 0x78, 0x0B, 0x13, 0x43, 0x65, 0x87, 0x1E, 0x6D};
    static const uint8_t holder_b[15] = {0x0E, 0x44, 0xAE, 0x0C, 0x78, 0x56, 0x34, 0x12,
                                         0x01, 0x07, 0x78, 0xEC, 0xE5, 0x87, 0xEA};
    struct frame a = make_frame(A, content, 15), b = make_frame(B, holds_a_frame, 12);
    must_be("check of 123456789", check((const uint8_t *)"123456789", 9), 0xC2B7);
    must_be("check of 00", check((const uint8_t[1]){0}, 1), 0xFFFF);
    must_be("check of 01", check((const uint8_t[1]){1}, 1), 0xC29A);
    must_be("size of A, n = 10", layouts[A][10].size, 15);
    must_be("size of A, n = 25", layouts[A][25].size, 30);
    must_be("size of A, n = 26", layouts[A][26].size, 33);
    must_be("size of A, n = 255", layouts[A][255].size, LONGEST);
    must_be("size of B, L = 127", layouts[B][127].size, 128);
    must_be("size of B, L = 130", layouts[B][130].size, 131);
    must_be("content of B, L = 255", layouts[B][255].content, 251);
    if (memcmp(a.bytes, annex_a, 20)) fail("the own frame is not Annex C.2's");
    if (memcmp(b.bytes, holder_b, 15)) fail("the own B frame is not the document's");
}

/* The parts in which the library must see whatever is done. */
static void must_be_seen(const struct frame *short_a, const struct frame *annex_a, const struct frame *short_b) {
    struct frame long_a = random_frame(A, 255), one_block_b = random_frame(B, 125), long_b = random_frame(B, 251);
    all_bursts(short_a);
    all_bursts(annex_a);
    all_bursts(short_b);
    all_few_bits(short_a, 4);
    all_few_bits(annex_a, 3);
    all_few_bits(&long_a, 2);
    all_few_bits(short_b, 3);
    all_few_bits(&one_block_b, 2);
    all_few_bits(&long_b, 2);
    random_rounds(A, 300);
    random_rounds(B, 300);
}

/* A case that was never met was not tested. */
static void must_have_met_all(void) {
    for (unsigned number = 1; number <= 3; number++)
        if (answers[A][number] == 0) fail("format A: one of the numbers 1, 2, 3 never came");
    if (answers[B][3] == 0) fail("format B: the number 3 never came");
    if (only_first_wrong[0] == 0) fail("no smaller length byte left only the first check wrong");
    if (only_first_wrong[1] == 0) fail("no larger length byte left only the first check wrong");
}

static void print_counts(void) {
    unsigned long a = answers[A][1] + answers[A][2] + answers[A][3], b = answers[B][3];
    printf("tests/damage: format A: %lu reads gave 1, %lu gave 2, %lu gave 3; format B: %lu gave 3\n",
           answers[A][1], answers[A][2], answers[A][3], b);
    printf("tests/damage: length byte changed and only the first check wrong: %lu smaller, %lu larger\n",
           only_first_wrong[0], only_first_wrong[1]);
    printf("tests/damage: %lu further reads, beyond the promises; unseen went only what was worked out:\n"
           "tests/damage: 13D65h 80, 120, 80 and 5 times, 410053h 68, in a last block 255; in B one length byte,"
           " pairs 865, 2925, 1738\n", further_reads);
    printf("tests/damage: all %d wrong readers were found out\n", WRONG_READERS);
    printf("tests/damage: %lu reads of damaged frames, none accepted\n", a + b);
}

int main(int argc, char **argv) {
    char *end = "";
    random_state = argc > 1 ? strtoull(argv[1], &end, 10) : 1314;
    if (argc > 2 || *end != '\0') fail("usage: tests/damage/run [SEED], a number");
    printf("tests/damage: seed %llu\n", (unsigned long long)random_state);
    make_layouts();
    fill(lent_before, sizeof lent_before);
    restore_lent();
    documents_agree();
    struct frame short_a = make_frame(A, content, 10), annex_a = make_frame(A, content, 15);
    struct frame short_b = make_frame(B, content, 10);
    must_be_seen(&short_a, &annex_a, &short_b);
    limits_of_bursts(&short_a, &annex_a, &short_b);
    limits_of_few_bits(&short_a);
    limits_of_b();
    judge_wrong_readers(&short_a, &short_b);
    must_have_met_all();
    print_counts();
    return 0;
}
