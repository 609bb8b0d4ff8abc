//! Mending over document 02, 12/14: proposals judged on both sides of every edge, every single wrong byte of Annex C's
//! frames mended, what is not mended, and the refusals in their order.
use kusikhut::{check_bytes, Format, Refusal, CORRECTION_SIZE};
use std::fmt::Debug;

/// Annex C.2 with its correction: frame, header, check bytes.
const C2: [u8; 54] = [
    0x0F, 0x44, 0xAE, 0x0C, 0x78, 0x56, 0x34, 0x12, 0x01, 0x07, 0x44, 0x47, 0x78, 0x0B, 0x13, 0x43, 0x65, 0x87, 0x1E,
    0x6D, 0x21, 0x04, 0x84, 0xEA, 0x27, 0x69, 0x58, 0xEC, 0x76, 0xA2, 0x96, 0x78, 0xBF, 0x51, 0xDF, 0xED, 0x76, 0x61,
    0xD4, 0x6D, 0x36, 0xB8, 0x52, 0x3B, 0xAE, 0x78, 0x7C, 0xEF, 0xFD, 0x7B, 0x00, 0x7E, 0xC9, 0xC6,
];
/// Annex C.3 with its correction.
const C3: [u8; 55] = [
    0x14, 0x44, 0xAE, 0x0C, 0x78, 0x56, 0x34, 0x12, 0x01, 0x07, 0x8C, 0x20, 0x27, 0x78, 0x0B, 0x13, 0x43, 0x65, 0x87,
    0x7A, 0xC5, 0x21, 0x04, 0x9B, 0x45, 0xF3, 0x8E, 0x71, 0xEA, 0xB5, 0xDB, 0xC8, 0x01, 0x86, 0x02, 0x9E, 0xF9, 0x80,
    0xE1, 0x88, 0xF8, 0x36, 0x8D, 0x98, 0x3C, 0xA0, 0x55, 0xF2, 0x1D, 0x5F, 0x34, 0xD4, 0xE8, 0x59, 0x35,
];
/// C.2's frame, and the word that is to be proposed for it.
const FRAME: usize = 20;
const WORD: usize = 52;
const LONGEST: usize = 223;
const UNTOUCHED: u8 = 0xEE;

/// The refusal in the words of docs/RULES.md.
fn refused<T: Debug>(answer: Result<T, Refusal>) -> String {
    answer.expect_err("this is refused").to_string()
}

/// What was received, without its header.
fn word(received: &[u8], frame: usize) -> Vec<u8> {
    [&received[..frame], &received[frame + 2..frame + CORRECTION_SIZE]].concat()
}

/// The place in the received bytes of a place in the word.
fn as_sent(place: usize, frame: usize) -> usize {
    if place < frame {
        place
    } else {
        place + 2
    }
}

fn proposed(format: Format, received: &[u8]) -> Vec<u8> {
    let mut out = vec![UNTOUCHED; received.len()];
    let size = format.propose_one(received, &mut out).expect("it can be proposed for") as usize;
    assert!(out[size..].iter().all(|&b| b == UNTOUCHED));
    out.truncate(size);
    out
}

/// A frame of this content length with its correction, no two neighbouring bytes of its content alike.
fn sent(format: Format, n: usize) -> Vec<u8> {
    let content: Vec<u8> = (0..n).map(|i| (7 * i + 3) as u8).collect();
    let (mut frame, mut out) = ([0; 290], vec![0; 290 + CORRECTION_SIZE]);
    let size = format.write(&content, &mut frame).expect("there is room") as usize;
    let all = format.write_correction(&frame[..size], &mut out).expect("it is short enough");
    out.truncate(all as usize);
    out
}

/// What is proposed is the word that was sent; it is taken with so many differing bytes, and read.
fn is_mended(format: Format, sent: &[u8], received: &[u8], differing: u64) {
    let frame = sent.len() - CORRECTION_SIZE;
    let proposal = proposed(format, received);
    assert_eq!(proposal, word(sent, frame));
    assert_eq!(format.judge_proposal(&proposal, received), Ok(differing));
    let (mut read, mut before) = ([UNTOUCHED; 255], [UNTOUCHED; 255]);
    assert_eq!(format.read(&proposal, &mut read), format.read(sent, &mut before));
    assert_eq!(read, before);
}

#[test]
fn what_came_right_is_proposed_and_taken_as_it_is() {
    for (format, sent) in [(Format::A, &C2[..]), (Format::B, &C3[..])] {
        is_mended(format, sent, sent, 0);
        // what stands behind either is not looked at
        is_mended(format, sent, &[sent, &[0x55; 9]].concat(), 0);
        let longer = [word(sent, sent.len() - CORRECTION_SIZE), vec![0x55; 9]].concat();
        assert_eq!(format.judge_proposal(&longer, sent), Ok(0));
    }
}

/// Every place but the first, and all 255 wrong values there.
#[test]
fn every_single_wrong_byte_is_mended() {
    for (format, sent) in [(Format::A, &C2[..]), (Format::B, &C3[..])] {
        let frame = sent.len() - CORRECTION_SIZE;
        for place in 1..frame + 32 {
            for error in 1..=255 {
                let mut received = sent.to_vec();
                received[as_sent(place, frame)] ^= error;
                is_mended(format, sent, &received, 1);
            }
        }
    }
}

/// A frame of every length, with a wrong byte at both of its ends, at both of the check bytes' and between.
#[test]
fn a_wrong_byte_is_mended_in_a_frame_of_every_length() {
    for (format, longest) in [(Format::A, 196), (Format::B, 218)] {
        for n in 10..=longest {
            let sent = sent(format, n);
            let frame = sent.len() - CORRECTION_SIZE;
            for place in [1, frame / 2, frame - 1, frame, frame + 31] {
                let mut received = sent.clone();
                received[as_sent(place, frame)] ^= 0x80;
                is_mended(format, &sent, &received, 1);
            }
        }
    }
}

/// Its bytes are skipped, also beside a wrong byte.
#[test]
fn every_header_is_skipped() {
    for header in 0..=u16::MAX {
        let mut received = C2;
        received[FRAME..FRAME + 2].copy_from_slice(&header.to_le_bytes());
        received[7] ^= header as u8;
        assert_eq!(proposed(Format::A, &received), word(&C2, FRAME));
        let differing = u64::from(header as u8 != 0);
        assert_eq!(Format::A.judge_proposal(&word(&C2, FRAME), &received), Ok(differing));
    }
}

/// The right word is taken with one differing byte, but the proposer does not find it. It goes by the wrong length byte
/// and hands out the received word of that length; where the frame would be longer, too few bytes were received.
#[test]
fn the_length_byte_is_not_mended() {
    for length in (0..=255).filter(|&length| length != C2[0]) {
        let mut received = C2;
        received[0] = length;
        assert_eq!(Format::A.judge_proposal(&word(&C2, FRAME), &received), Ok(1));
        let mut out = [UNTOUCHED; 54];
        let answer = Format::A.propose_one(&received, &mut out);
        if (10..15).contains(&length) {
            let frame = usize::from(length) + 5;
            assert_eq!(answer, Ok(frame as u64 + 32));
            assert_eq!(out[..frame + 32], word(&received, frame));
            assert_eq!(refused(Format::A.judge_proposal(&out, &received)), "25 not-in-correction-code");
        } else {
            let number = if length < 10 {
                2
            } else if length > 196 {
                23
            } else {
                1
            };
            assert_eq!(answer.map_err(Refusal::number), Err(number), "{length}");
            assert_eq!(out, [UNTOUCHED; 54]);
        }
    }
}

#[test]
fn two_wrong_bytes_are_left_as_they_are() {
    for first in 1..WORD {
        for second in first + 1..WORD {
            let mut received = C2;
            received[as_sent(first, FRAME)] ^= 0x5A;
            received[as_sent(second, FRAME)] ^= 0xA5;
            let proposal = proposed(Format::A, &received);
            assert_eq!(proposal, word(&received, FRAME));
            assert_eq!(refused(Format::A.judge_proposal(&proposal, &received)), "25 not-in-correction-code");
            assert_eq!(Format::A.judge_proposal(&word(&C2, FRAME), &received), Ok(2));
        }
    }
}

/// So many wrong bytes in a row, from each place on and round the end: up to 16 the sent word is taken.
#[test]
fn sixteen_wrong_bytes_and_seventeen() {
    let proposal = word(&C2, FRAME);
    for start in 0..WORD {
        let mut received = C2;
        for wrong in 1..=WORD {
            received[as_sent((start + wrong - 1) % WORD, FRAME)] ^= 0x11;
            let answer = Format::A.judge_proposal(&proposal, &received);
            match wrong {
                1..=16 => assert_eq!(answer, Ok(wrong as u64)),
                _ => assert_eq!(refused(answer), "26 too-far-for-correction"),
            }
        }
    }
}

/// A proposal is judged by its check bytes alone; its block checks are left to reading.
#[test]
fn a_taken_frame_is_still_to_be_read() {
    let mut received = C2;
    received[15] ^= 1;
    let (frame, rest) = received.split_at_mut(FRAME);
    check_bytes(frame, &mut rest[2..]).expect("there is room");
    let proposal = proposed(Format::A, &received);
    assert_eq!(Format::A.judge_proposal(&proposal, &received), Ok(0));
    let mut read = [UNTOUCHED; 15];
    assert_eq!(refused(Format::A.read(&proposal, &mut read)), "3 wrong-check block=2");
    assert_eq!(read, [UNTOUCHED; 15]);
}

/// Of a frame of 77 bytes the length byte came as 0Ch, not as 4Ch. What was received is a code word of that length and
/// holds another frame; the word that was sent is taken, too, and both are read.
#[test]
fn with_a_wrong_length_byte_another_frame_can_be_taken() {
    let sent = [
        0x4C, 0x44, 0xAE, 0x0C, 0x78, 0x56, 0x34, 0x12, 0x01, 0x07, 0x78, 0xEC, 0xE5, 0x21, 0x04, 0xEE, 0x9B, 0x87,
        0x07, 0x19, 0xE1, 0x0A, 0xBF, 0x79, 0x21, 0x3A, 0x1F, 0x85, 0x1A, 0x88, 0x96, 0x85, 0x6F, 0x0D, 0xD0, 0x1A,
        0x11, 0x25, 0xB2, 0x50, 0x41, 0xC6, 0xA1, 0xCB, 0x71, 0xFE, 0x32, 0x10, 0x11, 0x12, 0x13, 0x14, 0x15, 0x16,
        0x17, 0x18, 0x19, 0x1A, 0x1B, 0x1C, 0x1D, 0x1E, 0x1F, 0x20, 0x21, 0x22, 0x23, 0x24, 0x25, 0x26, 0x27, 0x28,
        0x29, 0x2A, 0x2B, 0x51, 0x53, 0x21, 0x04, 0x6C, 0x73, 0x71, 0xBA, 0x00, 0x2D, 0x1F, 0xAB, 0xBC, 0x4F, 0x36,
        0x15, 0xA9, 0x35, 0xF7, 0xA0, 0x6F, 0x90, 0xC3, 0xBD, 0x21, 0x26, 0x6E, 0xD1, 0x27, 0x32, 0x1A, 0xAD, 0xB7,
        0xC4, 0x99, 0x4C,
    ];
    is_mended(Format::B, &sent, &sent, 0);
    let mut received = sent;
    received[0] = 0x0C;
    let found = proposed(Format::B, &received);
    assert_eq!(found, word(&received, 13));
    for (proposal, differing, n) in [(found, 0, 10), (word(&sent, 77), 1, 74)] {
        assert_eq!(Format::B.judge_proposal(&proposal, &received), Ok(differing));
        let mut read = vec![0; n];
        assert_eq!(Format::B.read(&proposal, &mut read).map(|frame| frame.n), Ok(n as u64));
        assert_eq!(read, sent[1..=n]);
    }
}

#[test]
fn the_refusals_of_judging_in_their_order() {
    let judge = |proposal: &[u8], received: &[u8]| refused(Format::A.judge_proposal(proposal, received));
    let right = word(&C2, FRAME);
    assert_eq!(judge(&[], &C2), "1 too-short");
    // the proposal's own length byte comes before anything that is received
    assert_eq!(judge(&[9], &[]), "2 length-not-allowed");
    assert_eq!(judge(&[197], &[]), "23 too-long-for-correction");
    assert_eq!(judge(&right[..WORD - 1], &C2), "1 too-short");
    assert_eq!(judge(&right, &C2[..53]), "1 too-short");
    assert_eq!(judge(&right, &[]), "1 too-short");
    let mut wrong = right.clone();
    wrong[WORD - 1] ^= 1;
    assert_eq!(judge(&wrong, &C2[..53]), "1 too-short");
    // also as far as can be: 25 comes before 26
    assert_eq!(judge(&wrong, &C2), "25 not-in-correction-code");
    assert_eq!(judge(&wrong, &C2.map(|byte| !byte)), "25 not-in-correction-code");
    assert_eq!(judge(&right, &C2.map(|byte| !byte)), "26 too-far-for-correction");
    assert_eq!(refused(Format::B.judge_proposal(&[0x80], &C3)), "2 length-not-allowed");
}

#[test]
fn the_refusals_of_proposing_in_their_order() {
    let mut out = [UNTOUCHED; WORD];
    let propose = |received: &[u8], out: &mut [u8]| refused(Format::A.propose_one(received, out));
    assert_eq!(propose(&[], &mut out), "1 too-short");
    assert_eq!(propose(&[9], &mut out), "2 length-not-allowed");
    assert_eq!(propose(&[197], &mut out), "23 too-long-for-correction");
    assert_eq!(propose(&C2[..53], &mut out[..51]), "1 too-short");
    assert_eq!(propose(&C2, &mut out[..51]), "4 no-room");
    assert_eq!(propose(&C2, &mut []), "4 no-room");
    assert_eq!(refused(Format::B.propose_one(&C3, &mut out)), "4 no-room");
    assert_eq!(out, [UNTOUCHED; WORD]);
}

/// 223 bytes and 224: content of 196 and 197 bytes in format A, 218 and 219 in format B, where L is 222 and 223.
#[test]
fn two_hundred_and_twenty_three_bytes_and_no_more() {
    for (format, n, length) in [(Format::A, 196, 197), (Format::B, 218, 223)] {
        let mut received = sent(format, n);
        assert_eq!(received.len(), LONGEST + CORRECTION_SIZE);
        let right = word(&received, LONGEST);
        received[LONGEST - 1] ^= 1;
        assert_eq!(proposed(format, &received), right);
        let long = vec![length; LONGEST + 1 + CORRECTION_SIZE];
        let mut out = [UNTOUCHED; 256];
        assert_eq!(refused(format.propose_one(&long, &mut out)), "23 too-long-for-correction");
        assert_eq!(out, [UNTOUCHED; 256]);
        assert_eq!(refused(format.judge_proposal(&long, &long)), "23 too-long-for-correction");
    }
}
