/* A collector in small: takes a frame out of the chips that a radio has heard, and is refused one that was cut off.
 *
 * A radio hands over chips, the ones and zeros on the air, eight to a byte, the first chip in the highest bit. Where a
 * frame begins it does not say: kusikhut_receive looks for it, checks every byte, and writes what the meter says, the
 * content, into memory that we lend. Once `./install` has put the library in place, this builds it:
 *
 *     cc -o collector collector.c $(pkg-config --cflags --libs kusikhut)
 */
#include <kusikhut.h>
#include <stdio.h>

/* The frame of EN 13757-4:2019, Annex C.2, in mode T: 32 chips before it that mean nothing, the sync word 54 3D, then
 * 20 bytes of 12 chips each, and what the radio heard after it. */
static const uint8_t heard[37] = {0x55, 0x55, 0x55, 0x55, 0x54, 0x3D, 0x5A, 0x97, 0x1C, 0x9B, 0x25, 0xB4, 0x4E,
                                  0xC6, 0x5A, 0x2D, 0xC3, 0x4E, 0x58, 0xD5, 0x93, 0x71, 0xC7, 0x13, 0x4E, 0xC5,
                                  0xA3, 0x34, 0xB7, 0x0B, 0x69, 0x9B, 0x13, 0x37, 0x26, 0xB1, 0x40};

/* What kusikhut_receive writes into its row of results, in this order. */
enum { KIND, PLACE, TRIED, FRAME_SIZE, CONTENT_LENGTH, WRONG_BLOCK, BAD_WORD, RESULTS };

static const char *const kinds[] = {"mode T, format A", "mode C, format A", "mode C, format B"};

/* What kusikhut_maker writes into its row of results, in this order. */
enum { HAS_LETTERS, LETTER_1, LETTER_2, LETTER_3, IS_SOFT, MAKER_RESULTS };

/* The content begins with the byte C, then the name of the device that sent it: two bytes M for its maker, low byte
 * first, and six bytes A, its address. M stands for three letters or none, and says how far A is unique. With EN 13757-3
 * A is a number, sent with its low byte first, a version and a type; people print the number with its high byte first. */
static void print_sender(const uint8_t *content) {
    uint64_t maker[MAKER_RESULTS];
    const uint8_t *a = content + 3;
    kusikhut_maker((uint16_t)(content[1] | content[2] << 8), maker);
    if (maker[HAS_LETTERS])
        printf("  maker    %c%c%c\n", (char)maker[LETTER_1], (char)maker[LETTER_2], (char)maker[LETTER_3]);
    else
        printf("  maker    M has no letters\n");
    printf("  address  %02X%02X%02X%02X version %02X type %02X, %s\n", a[3], a[2], a[1], a[0], a[4], a[5],
           maker[IS_SOFT] ? "soft: unique at least within radio range" : "hard: unique worldwide");
}

static void receive(const char *what, const uint8_t *chips, size_t chips_len) {
    uint8_t content[255]; /* no content is longer */
    uint64_t results[RESULTS];
    /* from chip 0 on, at as many places as there are */
    uint8_t answer = kusikhut_receive(chips, chips_len, 0, SIZE_MAX, content, sizeof content, results);
    if (answer != 0) {
        /* kusikhut.h lists the numbers. `content` is as it was: of a refused frame there is nothing to read. */
        printf("%s: refused, answer %d%s\n", what, answer, answer == 1 ? ", the chips end too early" : "");
        return;
    }
    printf("%s: accepted\n", what);
    printf("  kind     %s\n", kinds[results[KIND]]);
    printf("  place    chip %d\n", (int)results[PLACE]);
    printf("  content  ");
    for (uint64_t i = 0; i < results[CONTENT_LENGTH]; i++) printf("%02X", content[i]);
    printf("\n");
    print_sender(content);
}

int main(void) {
    receive("the whole frame", heard, sizeof heard);
    /* Without its last two bytes, 24 chips, and what came after them: 33 bytes of chips. All that was heard is right,
     * and the reading would be in it. It is never taken. */
    receive("cut two bytes early", heard, 33);
    return 0;
}
