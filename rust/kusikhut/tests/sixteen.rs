//! Mending of up to sixteen wrong bytes: every number of them in frames of every length, what is left as it was
//! received, another frame with seventeen, and the refusals in their order.
use kusikhut::{Format, Refusal, CORRECTION_SIZE};

/// Annex C.2 with its correction: frame, header, check bytes.
const C2: [u8; 54] = [
    0x0F, 0x44, 0xAE, 0x0C, 0x78, 0x56, 0x34, 0x12, 0x01, 0x07, 0x44, 0x47, 0x78, 0x0B, 0x13, 0x43, 0x65, 0x87, 0x1E,
    0x6D, 0x21, 0x04, 0x84, 0xEA, 0x27, 0x69, 0x58, 0xEC, 0x76, 0xA2, 0x96, 0x78, 0xBF, 0x51, 0xDF, 0xED, 0x76, 0x61,
    0xD4, 0x6D, 0x36, 0xB8, 0x52, 0x3B, 0xAE, 0x78, 0x7C, 0xEF, 0xFD, 0x7B, 0x00, 0x7E, 0xC9, 0xC6,
];
const UNTOUCHED: u8 = 0xEE;

/// A row of numbers that is the same in every run.
struct Chance(u64);

impl Chance {
    fn below(&mut self, most: usize) -> usize {
        self.0 = self.0.wrapping_mul(6_364_136_223_846_793_005).wrapping_add(1_442_695_040_888_963_407);
        (self.0 >> 33) as usize % most
    }
}

/// A frame of this content length with its correction.
fn sent(format: Format, n: usize) -> Vec<u8> {
    let content: Vec<u8> = (0..n).map(|i| (11 * i + 5) as u8).collect();
    let (mut frame, mut out) = ([0; 290], vec![0; 290 + CORRECTION_SIZE]);
    let size = format.write(&content, &mut frame).expect("there is room") as usize;
    let all = format.write_correction(&frame[..size], &mut out).expect("it is short enough");
    out.truncate(all as usize);
    out
}

/// The word in what was sent or received: without its header.
fn word(bytes: &[u8]) -> Vec<u8> {
    let frame = bytes.len() - CORRECTION_SIZE;
    [&bytes[..frame], &bytes[frame + 2..]].concat()
}

/// So many bytes behind the length byte made wrong, each by another amount than 0; the header does not count.
fn damaged(sent: &[u8], wrong: usize, chance: &mut Chance) -> Vec<u8> {
    let header = sent.len() - CORRECTION_SIZE;
    let mut places: Vec<usize> = (1..sent.len()).filter(|&at| at != header && at != header + 1).collect();
    let mut received = sent.to_vec();
    for _ in 0..wrong {
        let at = places.swap_remove(chance.below(places.len()));
        received[at] ^= 1 + chance.below(255) as u8;
    }
    received
}

fn proposed(format: Format, received: &[u8]) -> Vec<u8> {
    let (before, mut out) = (received.to_vec(), vec![UNTOUCHED; received.len()]);
    let size = format.propose(received, &mut out).expect("it can be proposed for") as usize;
    assert_eq!((size, received), (received.len() - 2, &before[..]));
    assert!(out[size..].iter().all(|&b| b == UNTOUCHED));
    out.truncate(size);
    out
}

#[test]
fn every_number_of_wrong_bytes_up_to_sixteen_in_frames_of_every_length() {
    let mut chance = Chance(20_261_116);
    for (format, longest) in [(Format::A, 196), (Format::B, 218)] {
        for n in (10..=longest).filter(|&n| format.write(&vec![0; n], &mut [0; 290]).is_ok()) {
            let sent = sent(format, n);
            for wrong in 0..=16 {
                let mut received = damaged(&sent, wrong, &mut chance);
                let header = sent.len() - CORRECTION_SIZE;
                received[header..header + 2].fill(chance.below(256) as u8);
                let proposal = proposed(format, &received);
                assert_eq!(proposal, word(&sent), "{format:?}, {n} bytes of content, {wrong} wrong");
                assert_eq!(format.judge_proposal(&proposal, &received), Ok(wrong as u64));
            }
        }
    }
}

#[test]
fn more_than_sixteen_leave_what_was_received_or_give_a_code_word() {
    let mut chance = Chance(17);
    for wrong in 17..=40 {
        for n in [10, 15, 60, 196] {
            let received = damaged(&sent(Format::A, n), wrong, &mut chance);
            let proposal = proposed(Format::A, &received);
            match Format::A.judge_proposal(&proposal, &received) {
                Ok(differing) => assert!(differing <= 16 && proposal[0] == received[0]),
                Err(refusal) => assert_eq!((refusal.number(), &proposal), (25, &word(&received))),
            }
        }
    }
}

/// Seventeen bytes of C.2 are as they are in a frame with another content: that frame is proposed, taken and read.
#[test]
fn seventeen_wrong_bytes_can_be_another_frame() {
    let other = [
        0x0F, 0x44, 0xAE, 0x0C, 0x78, 0x56, 0x34, 0x12, 0x01, 0x07, 0x44, 0x47, 0x78, 0x0B, 0x13, 0x43, 0x96, 0x87,
        0x91, 0x77,
    ];
    let mut all = [0; 20 + CORRECTION_SIZE];
    Format::A.write_correction(&other, &mut all).expect("it is a frame");
    let apart: Vec<usize> = (0..C2.len()).filter(|&at| C2[at] != all[at]).collect();
    assert_eq!(apart.len(), 33, "no two words of this length are nearer");
    let mut received = C2;
    for &at in &apart[..17] {
        received[at] = all[at];
    }
    let (proposal, mut read) = (proposed(Format::A, &received), [0; 15]);
    assert_eq!(proposal, word(&all));
    assert_eq!(Format::A.judge_proposal(&proposal, &received), Ok(16));
    assert_eq!(Format::A.read(&proposal, &mut read).map(|frame| frame.n), Ok(15));
    assert_eq!(read[13], 0x96);
}

/// A wrong length byte, alone or beside others, is never mended: what is proposed has the one that was received.
#[test]
fn the_length_byte_stays() {
    let mut chance = Chance(3);
    for wrong in 0..=16 {
        for length in 10..=196 {
            let mut received = damaged(&sent(Format::A, 196), wrong, &mut chance);
            received[0] = length;
            let mut out = [UNTOUCHED; 255];
            let size = Format::A.propose(&received, &mut out).expect("all its bytes are there") as usize;
            assert_eq!(out[0], length);
            assert!(out[size..].iter().all(|&b| b == UNTOUCHED));
        }
    }
}

#[test]
fn the_refusals_in_their_order() {
    let refused = |received: &[u8], room: usize| {
        let mut out = [UNTOUCHED; 52];
        let answer: Result<u64, Refusal> = Format::A.propose(received, &mut out[..room]);
        assert_eq!(out, [UNTOUCHED; 52]);
        answer.expect_err("this is refused").to_string()
    };
    assert_eq!(refused(&[], 0), "1 too-short");
    assert_eq!(refused(&[9], 0), "2 length-not-allowed");
    assert_eq!(refused(&[197], 0), "23 too-long-for-correction");
    assert_eq!(refused(&C2[..53], 0), "1 too-short");
    assert_eq!(refused(&C2, 51), "4 no-room");
}
