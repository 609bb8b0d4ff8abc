//! Correction bytes over EN 13757-4:2019, 12.8, and document 02, 11/14: the frames of Annex C, the refusals in their
//! order, every header, and that a written word is a code word by the generator's roots.
use kusikhut::{check_bytes, read_correction_header, Format, Refusal, CORRECTION_SIZE};
use std::fmt::Debug;

const C2: [u8; 20] = [
    0x0F, 0x44, 0xAE, 0x0C, 0x78, 0x56, 0x34, 0x12, 0x01, 0x07, 0x44, 0x47, 0x78, 0x0B, 0x13, 0x43, 0x65, 0x87, 0x1E,
    0x6D,
];
const C2_CHECKS: [u8; 32] = [
    0x84, 0xEA, 0x27, 0x69, 0x58, 0xEC, 0x76, 0xA2, 0x96, 0x78, 0xBF, 0x51, 0xDF, 0xED, 0x76, 0x61, 0xD4, 0x6D, 0x36,
    0xB8, 0x52, 0x3B, 0xAE, 0x78, 0x7C, 0xEF, 0xFD, 0x7B, 0x00, 0x7E, 0xC9, 0xC6,
];
const C3: [u8; 21] = [
    0x14, 0x44, 0xAE, 0x0C, 0x78, 0x56, 0x34, 0x12, 0x01, 0x07, 0x8C, 0x20, 0x27, 0x78, 0x0B, 0x13, 0x43, 0x65, 0x87,
    0x7A, 0xC5,
];
const C3_CHECKS: [u8; 32] = [
    0x9B, 0x45, 0xF3, 0x8E, 0x71, 0xEA, 0xB5, 0xDB, 0xC8, 0x01, 0x86, 0x02, 0x9E, 0xF9, 0x80, 0xE1, 0x88, 0xF8, 0x36,
    0x8D, 0x98, 0x3C, 0xA0, 0x55, 0xF2, 0x1D, 0x5F, 0x34, 0xD4, 0xE8, 0x59, 0x35,
];
const HEADER: [u8; 2] = [0x21, 0x04];
const LONGEST: usize = 223;
const UNTOUCHED: u8 = 0xEE;

/// The refusal in the words of docs/RULES.md.
fn refused<T: Debug>(answer: Result<T, Refusal>) -> String {
    answer.expect_err("this is refused").to_string()
}

/// A frame of this content length, no two neighbouring bytes of its content alike.
fn frame(format: Format, n: usize) -> Vec<u8> {
    let content: Vec<u8> = (0..n).map(|i| (7 * i + 3) as u8).collect();
    let mut frame = vec![0; 290];
    let size = format.write(&content, &mut frame).expect("there is room") as usize;
    frame.truncate(size);
    frame
}

#[test]
fn the_frames_of_annex_c() {
    for (format, frame, checks) in [(Format::A, &C2[..], C2_CHECKS), (Format::B, &C3[..], C3_CHECKS)] {
        let size = frame.len() + CORRECTION_SIZE;
        let mut out = [UNTOUCHED; 60];
        // what stands behind the frame is no part of it
        let received = [frame, &[0x55]].concat();
        assert_eq!(format.write_correction(&received, &mut out), Ok(size as u64));
        assert_eq!(out[..size], [frame, &HEADER, &checks].concat());
        assert!(out[size..].iter().all(|&b| b == UNTOUCHED));
        let mut alone = [UNTOUCHED; 33];
        assert_eq!((check_bytes(frame, &mut alone), alone[32]), (Ok(32), UNTOUCHED));
        assert_eq!(alone[..32], checks);
    }
}

#[test]
fn a_refusal_leaves_lent_memory() {
    let mut out = [UNTOUCHED; 54];
    assert_eq!(refused(Format::A.write_correction(&[], &mut out)), "1 too-short");
    assert_eq!(refused(Format::A.write_correction(&[9], &mut out)), "2 length-not-allowed");
    assert_eq!(refused(Format::A.write_correction(&C2[..19], &mut out)), "1 too-short");
    let mut wrong = C2;
    wrong[12] ^= 0x80;
    assert_eq!(refused(Format::A.write_correction(&wrong, &mut out)), "3 wrong-check block=2");
    assert_eq!(refused(Format::A.write_correction(&C2, &mut out[..53])), "4 no-room");
    assert_eq!(refused(check_bytes(&C2, &mut out[..31])), "4 no-room");
    assert_eq!(out, [UNTOUCHED; 54]);
}

/// 223 bytes and 224: content of 196 and 197 bytes in format A, 218 and 219 in format B.
#[test]
fn two_hundred_and_twenty_three_bytes_and_no_more() {
    for (format, n, blocks) in [(Format::A, 196, 13), (Format::B, 218, 2)] {
        let (fitting, mut long) = (frame(format, n), frame(format, n + 1));
        assert_eq!((fitting.len(), long.len()), (LONGEST, LONGEST + 1));
        let mut out = [UNTOUCHED; LONGEST + CORRECTION_SIZE];
        assert_eq!(refused(format.write_correction(&fitting, &mut out[..256])), "4 no-room");
        // too long comes before too little room, and behind a wrong check
        assert_eq!(refused(format.write_correction(&long, &mut out)), "23 too-long-for-correction");
        long[LONGEST] ^= 1;
        assert_eq!(refused(format.write_correction(&long, &mut out)), format!("3 wrong-check block={blocks}"));
        assert_eq!(refused(check_bytes(&long, &mut out[..31])), "23 too-long-for-correction");
        assert_eq!(out, [UNTOUCHED; LONGEST + CORRECTION_SIZE]);
        assert_eq!(format.write_correction(&fitting, &mut out), Ok(257));
        assert_eq!(out[..LONGEST], fitting);
    }
}

/// The product in the field of CCSDS 131.0-B-2, 4.3.3: x^8 is x^7 + x^2 + x + 1.
fn product(a: u8, b: u8) -> u8 {
    let doubled = |a: u8| a << 1 ^ if a >> 7 == 1 { 0x87 } else { 0 };
    (0..8).rev().fold(0, |sum, bit| doubled(sum) ^ if b >> bit & 1 == 1 { a } else { 0 })
}

/// The generator's roots (4.3.4): alpha^(11 j) for j from 112 to 143, alpha being 2.
fn roots() -> Vec<u8> {
    (112..=143).map(|j| (0..11 * j).fold(1, |power, _| product(power, 2))).collect()
}

/// Each written word is 0 at every root; the division that finds its check bytes is nowhere in this test.
#[test]
fn a_written_word_is_a_code_word() {
    let roots = roots();
    for (format, longest) in [(Format::A, 196), (Format::B, 218)] {
        for n in 10..=longest {
            let frame = frame(format, n);
            let mut out = [0; LONGEST + CORRECTION_SIZE];
            let size = format.write_correction(&frame, &mut out).expect("it is short enough") as usize;
            let word = [&frame, &out[frame.len() + HEADER.len()..size]].concat();
            for &root in &roots {
                assert_eq!(word.iter().fold(0, |value, &byte| product(value, root) ^ byte), 0, "{format:?}, n = {n}");
            }
        }
    }
}

#[test]
fn zero_fill_in_front_changes_nothing() {
    for zeros in 0..=LONGEST - C2.len() {
        let (filled, mut checks) = ([vec![0; zeros], C2.to_vec()].concat(), [0; 32]);
        assert_eq!((check_bytes(&filled, &mut checks), checks), (Ok(32), C2_CHECKS));
    }
    // and behind the word it does: another code
    let mut checks = [0; 32];
    assert_eq!(check_bytes(&[&C2[..], &[0]].concat(), &mut checks), Ok(32));
    assert_ne!(checks, C2_CHECKS);
    // the word of no byte, and of fill alone, has check bytes of zero
    for word in [&[][..], &[0; LONGEST]] {
        let mut checks = [UNTOUCHED; 32];
        assert_eq!((check_bytes(word, &mut checks), checks), (Ok(32), [0; 32]));
    }
}

/// Of the three copies of each bit at most one is wrong: four triples for each of five bits, and bit 15 is free.
#[test]
fn every_header() {
    let mut accepted = 0;
    for header in 0..=u16::MAX {
        let wrong = header ^ 0x0421;
        let outvoted = (0..5).all(|bit| [0, 5, 10].iter().filter(|&copy| wrong >> (bit + copy) & 1 == 1).count() <= 1);
        let answer = read_correction_header(&header.to_le_bytes()).map_err(Refusal::number);
        assert_eq!(answer, if outvoted { Ok(()) } else { Err(24) }, "{header:04X}");
        accepted += u32::from(outvoted);
    }
    assert_eq!(accepted, 2 * 4u32.pow(5));
    assert_eq!(refused(read_correction_header(&[])), "1 too-short");
    assert_eq!(refused(read_correction_header(&HEADER[..1])), "1 too-short");
    assert_eq!(refused(read_correction_header(&[0, 0])), "24 unknown-correction-code");
    assert_eq!(read_correction_header(&[0x21, 0x04, 0xFF]), Ok(()));
}
