/* Kusikhut: the proved wireless M-Bus link layer (EN 13757-4:2019) for C.
 *
 * Link with libkusikhut.a: installed, `pkg-config --cflags --libs kusikhut` tells how; in the sources, `tools/build`
 * writes it to target/staticlib/, for x86-64. examples/collector.c of the sources is a first program.
 *
 * What a caller must see to, and nothing else:
 *  - Every pointer is valid for its length and not NULL, also where the length is 0.
 *  - `results` points to as many numbers as its array bound says.
 *  - Memory that is lent to be written (out, frame, store, results, row, centre) overlaps nothing else of the call.
 * Every value of every number is allowed: any place, size, allowance, count or byte gets an answer. That every call
 * ends is proved of the source, on the language's own machine; the stack that it needs is the caller's to provide.
 * No call keeps a pointer or reads past a length.
 *
 * Every function that returns `uint8_t`, all but kusikhut_access, gives the answer's number, 0 for accepted:
 *    1 bytes or chips end too early    2 length byte not allowed     3 a block check is wrong
 *    4 lent output too small           5 content length not allowed  6 not a code word
 *    7 every position tried, no sync   8 sync tail unknown           9 change place not below n
 *   10 out of range (received chip buffer over 1,024 bytes, start above the chip count, filter count over 16,
 *      check distance over 125)       11 CI is none of the four     12 body shorter than its header, or empty
 *   13 no such channel                14 allowance used up, positions left, no sync
 *   17 malformed store                18 store of unknown version     19 meter not held
 *   20 meter unsure                   21 session numbers used up      22 store full
 *   23 over 223 bytes, too long for correction bytes                24 correction header announces another code
 *   25 proposed word is no code word of the correction bytes        26 proposed word differs in over 16 bytes
 * The numbers with each function below stand in the order in which they are judged; docs/RULES.md of the sources says
 * more of them.
 * A refusal (any number but 0) changes no byte of `out`, `frame` or `store`. `results` is always written whole: the
 * values named below in this order, zero where the answer has no such value. A refusal shows at most one value, so the
 * sum of its results is that value.
 *
 * A chip buffer holds its first chip in the highest bit of its first byte; a chip place counts from 0. */
#ifndef KUSIKHUT_H
#define KUSIKHUT_H

#include <stddef.h>
#include <stdint.h>

#ifdef __cplusplus
extern "C" {
#endif

/* Line codes alone. Decoding n bytes from chip `start` on: 0, or 10, 1, 6, 4 in this order.
 * results[0]: for 6 the bad word's place among the call's words, from 0. Accepted: the first n bytes of out are the
 * bytes, the others stay. */
uint8_t kusikhut_decode_nrz(const uint8_t *chips, size_t chips_len, size_t start, size_t n,
                            uint8_t *out, size_t out_len, uint64_t results[1]);
uint8_t kusikhut_decode_three_of_six(const uint8_t *chips, size_t chips_len, size_t start, size_t n,
                                     uint8_t *out, size_t out_len, uint64_t results[1]);
uint8_t kusikhut_decode_manchester(const uint8_t *chips, size_t chips_len, size_t start, size_t n,
                                   uint8_t *out, size_t out_len, uint64_t results[1]);

/* Encoding: 0, or 4. results[0]: bytes written. Unused chips of the last one are 0, bytes after it stay. */
uint8_t kusikhut_encode_nrz(const uint8_t *bytes, size_t bytes_len, uint8_t *out, size_t out_len, uint64_t results[1]);
uint8_t kusikhut_encode_three_of_six(const uint8_t *bytes, size_t bytes_len, uint8_t *out, size_t out_len,
                                     uint64_t results[1]);
uint8_t kusikhut_encode_manchester(const uint8_t *bytes, size_t bytes_len, uint8_t *out, size_t out_len,
                                   uint64_t results[1]);

/* One code word at chip `at`: 0, or 10, 1, 6. results[0]: the byte, half-byte or bit that it stands for. The next word
 * begins 8 (NRZ), 6 (three-of-six) or 2 (Manchester) chips on. */
uint8_t kusikhut_word_nrz(const uint8_t *chips, size_t chips_len, size_t at, uint64_t results[1]);
uint8_t kusikhut_word_three_of_six(const uint8_t *chips, size_t chips_len, size_t at, uint64_t results[1]);
uint8_t kusikhut_word_manchester(const uint8_t *chips, size_t chips_len, size_t at, uint64_t results[1]);

/* The search for 543Dh from `start`, trying at most `allowance` positions: 0, or 10; 7 or 14.
 * results: place found, positions tried (also for 7 and 14). */
uint8_t kusikhut_search(const uint8_t *chips, size_t chips_len, size_t start, size_t allowance, uint64_t results[2]);

/* The block check of any bytes. */
uint16_t kusikhut_check(const uint8_t *bytes, size_t bytes_len);

/* The check after one byte of the checked span changed from old_byte to new_byte, `distance` bytes before the span's
 * end: 0, or 10. results[0]: the new check. */
uint8_t kusikhut_update(uint16_t old_check, uint8_t old_byte, uint8_t new_byte, size_t distance, uint64_t results[1]);

/* Frames as bytes, in format A and B.
 * The size of a frame whose length byte is l: 0, or 2. results[0]: its size in bytes. */
uint8_t kusikhut_frame_size_a(uint8_t l, uint64_t results[1]);
uint8_t kusikhut_frame_size_b(uint8_t l, uint64_t results[1]);

/* Reading: 0, or 1 (empty), 2, 1, 3, 4. results: frame size, content length n, and for 3 the first wrong block from 1.
 * Accepted: the content is in the first n bytes of out, the others stay. */
uint8_t kusikhut_read_a(const uint8_t *bytes, size_t bytes_len, uint8_t *out, size_t out_len, uint64_t results[3]);
uint8_t kusikhut_read_b(const uint8_t *bytes, size_t bytes_len, uint8_t *out, size_t out_len, uint64_t results[3]);

/* Writing: 0, or 5, 4. results[0]: frame size. Bytes of out after the frame stay. */
uint8_t kusikhut_write_a(const uint8_t *content, size_t content_len, uint8_t *out, size_t out_len, uint64_t results[1]);
uint8_t kusikhut_write_b(const uint8_t *content, size_t content_len, uint8_t *out, size_t out_len, uint64_t results[1]);

/* Changing the content byte at `place` in the frame itself: 0, or the frame's 1 (empty), 2, 1, 3, then 9.
 * results: frame size, content length, and for 3 the first wrong block. Only that byte and the two check bytes over it
 * change. */
uint8_t kusikhut_change_a(uint8_t *frame, size_t frame_len, size_t place, uint8_t byte, uint64_t results[3]);
uint8_t kusikhut_change_b(uint8_t *frame, size_t frame_len, size_t place, uint8_t byte, uint64_t results[3]);

/* Correction bytes for update frames (12.8): behind a frame stand a header of two bytes and 32 check bytes of
 * Reed-Solomon (255, 223), by which a receiver that knows the frame's length can mend up to 16 wrong bytes of frame and
 * check bytes together. They make no frame accepted: a received frame is read as always, and so is one that was mended.
 * Whether a frame has them is not told by the frame (12.8.2.1), and not every mode may send them (Table 41): both are
 * the caller's to know. The standard draws attention to a patent on 12.8 (its introduction): see docs/CORRECTION.md.
 *
 * Writing the frame that `bytes` begin with, the header 21h 04h, and the check bytes: 0, or the frame's 1 (empty), 2,
 * 1, 3; 23 if the frame has over 223 bytes; 4. results[0]: bytes written, KUSIKHUT_CORRECTION_SIZE more than the frame
 * has; for 3 the first wrong block from 1. Bytes of out after them stay. */
#define KUSIKHUT_CORRECTION_SIZE 34
uint8_t kusikhut_correction_write_a(const uint8_t *bytes, size_t bytes_len, uint8_t *out, size_t out_len,
                                    uint64_t results[1]);
uint8_t kusikhut_correction_write_b(const uint8_t *bytes, size_t bytes_len, uint8_t *out, size_t out_len,
                                    uint64_t results[1]);

/* The 32 check bytes alone, of any bytes, highest power first: 0, or 23 if they are over 223; 4. results[0]: 32. Bytes
 * of out after them stay. Zero bytes before the word do not change them, but count among the 223. */
uint8_t kusikhut_correction_check_bytes(const uint8_t *word, size_t word_len, uint8_t *out, size_t out_len,
                                        uint64_t results[1]);

/* Reading the header from the first two bytes: 0 if it announces check bytes of Reed-Solomon (255, 223), or 1, 24. Each
 * bit of its ID is what two or three of the three copies say; bit 15 is not looked at. */
uint8_t kusikhut_correction_header(const uint8_t *bytes, size_t bytes_len);

/* Mending. Received are a frame, its header and its check bytes; a proposal is a frame and its 32 check bytes, without
 * the header, and any routine may make it. It is taken exactly if it is a code word and at most 16 of its bytes differ
 * from the received ones. At most one word with a given length byte is taken. If that is the length byte that was sent,
 * and at most 16 bytes came wrong (the header not counted), it is the word that was sent. One with another length byte
 * may be taken, too, and read: the frame's length is the caller's to know.
 *
 * Judging a proposal: 0, or 1 (it is empty), 2, 23, by its own length byte; 1 if it has fewer bytes than its frame and
 * 32, or if fewer than its frame and KUSIKHUT_CORRECTION_SIZE were received; 25, 26. results[0]: how many bytes differ.
 * The received header is skipped, whatever it is, and bytes behind either are not looked at. Nor are block checks: read
 * the proposed frame afterwards (kusikhut_read_a, kusikhut_read_b), which may say 3. */
uint8_t kusikhut_mending_judge_a(const uint8_t *proposal, size_t proposal_len,
                                 const uint8_t *received, size_t received_len, uint64_t results[1]);
uint8_t kusikhut_mending_judge_b(const uint8_t *proposal, size_t proposal_len,
                                 const uint8_t *received, size_t received_len, uint64_t results[1]);

/* Proposing: the received word with one wrong byte mended, if another byte at one place behind the length byte makes it
 * a code word; else the received word as it is. 0, or 1 (nothing was received), 2, 23, by the received length byte; 1,
 * 4. results[0]: bytes written, 32 more than the frame has. Bytes of out after them stay, and so do the received ones.
 * A wrong length byte is not mended: another frame may then be proposed, taken and read. */
uint8_t kusikhut_mending_propose_one_a(const uint8_t *received, size_t received_len, uint8_t *out, size_t out_len,
                                       uint64_t results[1]);
uint8_t kusikhut_mending_propose_one_b(const uint8_t *received, size_t received_len, uint8_t *out, size_t out_len,
                                       uint64_t results[1]);

/* The same with up to 16 wrong bytes mended, wherever they stand behind the length byte: the word that was sent, if at
 * most 16 of its bytes came wrong and the length byte came right (the header not counted). Where no code word with the
 * received length byte is within 16 bytes, the received word as it is. If more than 16 came wrong, that is as a rule
 * what comes out, and judging says 25; but another word may be near, and be taken. */
uint8_t kusikhut_mending_propose_a(const uint8_t *received, size_t received_len, uint8_t *out, size_t out_len,
                                   uint64_t results[1]);
uint8_t kusikhut_mending_propose_b(const uint8_t *received, size_t received_len, uint8_t *out, size_t out_len,
                                   uint64_t results[1]);

/* Frames as chips. A kind is 0: mode T, format A; 1: mode C, format A; 2: mode C, format B; 3: Manchester, format A.
 * Receiving mode T or C: 0, or 10; 7 or 14; 1, 8; 1, 6; 2; 1, 6; 3; 4.
 * results: kind, place of the sync word (also for 8), positions tried (also for 7, 14), frame size, content length,
 * wrong block (for 3), place of the bad word from the frame's first word (for 6). */
uint8_t kusikhut_receive(const uint8_t *chips, size_t chips_len, size_t start, size_t allowance,
                         uint8_t *out, size_t out_len, uint64_t results[7]);

/* Receiving a Manchester frame at chip `start`: 0, or 10; 1, 6; 2; 1, 6; 3; 4. The same results; place is start,
 * positions tried 0. */
uint8_t kusikhut_receive_manchester(const uint8_t *chips, size_t chips_len, size_t start,
                                    uint8_t *out, size_t out_len, uint64_t results[7]);

/* Sending: 0, or 5, 4. results[0]: bytes written, sync chips first. Unused chips of the last byte are 0, bytes after
 * it stay. */
uint8_t kusikhut_send_t_a(const uint8_t *content, size_t content_len, uint8_t *out, size_t out_len, uint64_t results[1]);
uint8_t kusikhut_send_c_a(const uint8_t *content, size_t content_len, uint8_t *out, size_t out_len, uint64_t results[1]);
uint8_t kusikhut_send_c_b(const uint8_t *content, size_t content_len, uint8_t *out, size_t out_len, uint64_t results[1]);
uint8_t kusikhut_send_manchester_a(const uint8_t *content, size_t content_len, uint8_t *out, size_t out_len,
                                   uint64_t results[1]);

/* Extended link headers. Reading from a body: 0, or 12 (empty), 11, 12.
 * results: length, CI, CC, ACC, M2, the six bytes of A2 in their order, SN, and the two bytes of PayloadCRC in their
 * order. Fields that the header lacks are 0. */
uint8_t kusikhut_header_read(const uint8_t *body, size_t body_len, uint64_t results[14]);

/* Writing a header: 0, or 4. results[0]: bytes written; bytes after stay. a2 and crc are sent as they stand. */
uint8_t kusikhut_header_write_8c(uint8_t cc, uint8_t acc, uint8_t *out, size_t out_len, uint64_t results[1]);
uint8_t kusikhut_header_write_8d(uint8_t cc, uint8_t acc, uint32_t sn, const uint8_t crc[2],
                                 uint8_t *out, size_t out_len, uint64_t results[1]);
uint8_t kusikhut_header_write_8e(uint8_t cc, uint8_t acc, uint16_t m2, const uint8_t a2[6],
                                 uint8_t *out, size_t out_len, uint64_t results[1]);
uint8_t kusikhut_header_write_8f(uint8_t cc, uint8_t acc, uint16_t m2, const uint8_t a2[6], uint32_t sn,
                                 const uint8_t crc[2], uint8_t *out, size_t out_len, uint64_t results[1]);

/* Access announced by CC: 0 none, 1 none for now, 2 limited, 3 unlimited. */
uint8_t kusikhut_access(uint8_t cc);

/* What M says. The answer is always 0. m is content[1] + 256 * content[2], or M2 as kusikhut_header_read shows it, if
 * CI is 8Eh or 8Fh: a header without M2 shows 0, which would be told as hard. results: 1 and three letters as ASCII, or
 * four zeros where M has no letters; then, in both cases, 0 if the address is hard (unique worldwide), 1 if it is soft
 * (unique at least within radio range). */
uint8_t kusikhut_maker(uint16_t m, uint64_t results[5]);

/* The meter filter. entries: sixteen of eight bytes, M then A; the first `count` are in use. 0, or 10, 5.
 * results[0]: 1 wanted, 0 not. All eight bytes count: names that differ in the top bit of M alone are two meters. */
uint8_t kusikhut_filter(const uint8_t entries[16][8], size_t count, const uint8_t *content, size_t content_len,
                        uint64_t results[1]);

/* The settings store: up to 64 meters, each with mode, format, last session number and unsure mark, and the position
 * allowance. The caller owns its memory, KUSIKHUT_STORE_SIZE bytes or more: first the store as a file of version 2,
 * then bytes that mean nothing and that no call touches unless the store grows over them. Memory that is no store is
 * refused: 17 if it has no byte, 18 if its first byte is not 2, else 17, also if it has fewer bytes than that.
 * A meter is its M and A as received, eight bytes. A mode is its number in Table 64 (R 0, S 1, T 2, C 3, N 4, F 5), a
 * format its number in Table 65 (A 0, B 1). The file is the byte 2, then 4 and the allowance, 1 and the meter count,
 * then for each meter 8 and M and A, 1 and mode, 1 and format, 4 and number, 1 and mark; numbers with the highest byte
 * first. So M and A of meter k, from 0, stand from byte 9 + 20 k on.
 *
 * Begin with kusikhut_store_empty, once: called again it begins another store, which knows nothing of this one. From
 * then on each number that is issued for a meter is above every one that was issued for it or heard from it before,
 * whatever calls and restores come between. Heard is what an accepted kusikhut_store_hear was given: a number of a
 * meter that is not held is refused with 19 and not remembered. A backup comes in by kusikhut_store_restore alone:
 * copied into this memory, or written there as the `out` of another store's kusikhut_store_write, it would turn numbers
 * back, and nothing could see it. What may be copied back, after a restart, is what this very store saved last.
 * Not promised:
 *  - that a number is above one that was issued or heard and not saved before the power failed. Save the store's bytes
 *    after every accepted hear, and after every issue before the number is sent. Calls that change the store answer in
 *    results[0] how many bytes it has; issuing leaves their count;
 *  - of a meter that the store did not hold when a backup was restored, as an empty one holds none: that a number is
 *    above those issued or heard between the backup and its restore. The store cannot know them: issuing is refused
 *    with 20 until a number of the meter is heard, and only one as large as the lost ones helps. */
#define KUSIKHUT_STORE_SIZE 1288

/* A store without meters, with the allowance 16,384: 0, or 4. results[0]: its bytes. */
uint8_t kusikhut_store_empty(uint8_t *store, size_t store_len, uint64_t results[1]);

/* Adds a meter, unsure and at number 0; of one that is held only mode and format are set: 0, or the store's 17, 18, 17;
 * 17 if mode or format is outside its list; 22. results[0]: the store's bytes. */
uint8_t kusikhut_store_add(uint8_t *store, size_t store_len, const uint8_t meter[8], uint8_t mode, uint8_t format,
                           uint64_t results[1]);

/* A number was heard from the meter: it is sure, and keeps the larger number: 0, or 17, 18, 17; 19.
 * results[0]: the store's bytes. */
uint8_t kusikhut_store_hear(uint8_t *store, size_t store_len, const uint8_t meter[8], uint32_t number,
                            uint64_t results[1]);

/* The next number for the meter: 0, or 17, 18, 17; 19, 20, 21. results[0]: the number. */
uint8_t kusikhut_store_issue(uint8_t *store, size_t store_len, const uint8_t meter[8], uint64_t results[1]);

/* Restores a file of version 1 or 2, all or nothing: 0, or the store's 17, 18, 17; the file's 17 (empty), 18, 17; 22.
 * Mode, format and allowance are the file's, the larger number counts, and the store's own marks stay; version 1 means
 * the allowance 16,384. Held meters keep their places and stay if the file lacks them; new ones follow in the file's
 * order, unsure. results[0]: the store's bytes. */
uint8_t kusikhut_store_restore(uint8_t *store, size_t store_len, const uint8_t *file, size_t file_len,
                               uint64_t results[1]);

/* Writes the store as a file of version 2: 0, or 17, 18, 17; 4. results[0]: bytes written; bytes of out after them
 * stay. */
uint8_t kusikhut_store_write(const uint8_t *store, size_t store_len, uint8_t *out, size_t out_len, uint64_t results[1]);

/* What is held of a meter: 0, or 17, 18, 17; 19. results: mode, format, number, 1 if unsure. */
uint8_t kusikhut_store_look_up(const uint8_t *store, size_t store_len, const uint8_t meter[8], uint64_t results[4]);

/* The position allowance, read and set: 0, or 17, 18, 17. results[0]: the allowance; the store's bytes. */
uint8_t kusikhut_store_allowance(const uint8_t *store, size_t store_len, uint64_t results[1]);
uint8_t kusikhut_store_set_allowance(uint8_t *store, size_t store_len, uint32_t allowance, uint64_t results[1]);

/* Mode N. A row of Table 21 by index: first centre, spacing, tolerance in kHz; zeros for an index that is not 1 to 13.
 * A channel's centre in kHz: 0, or 13 and zero. */
void kusikhut_row(size_t index, double row[3]);
uint8_t kusikhut_centre(size_t index, size_t channel, double centre[1]);

/* Line k, from 0, of the list of a band; `band` is one capital letter A to D, perhaps with a line feed after it: 0, or
 * 13 past the last line and for any other input. results: index, channel, centre in Hz. */
uint8_t kusikhut_band_line(const uint8_t *band, size_t band_len, size_t k, uint64_t results[3]);

#ifdef __cplusplus
}
#endif

#endif
