//! Small inputs of correction bytes, without chance: every header, every length
//! of a frame and of a word, every single bit of the longest word, and what can
//! be wrong at the edges.

use super::correction::about_the_longest;
use super::number;
use crate::case::{Case, Operation};
use crate::correction::{CHECK_BYTES, CORRECTION, HEADER, LONGEST_WORD};
use crate::frames::{frame_of, Format};

/// All of them.
pub fn correction_inputs() -> Vec<Case> {
    let groups = [
        headers,
        frames_of_every_length,
        frames_at_the_edges,
        length_bytes,
        words_at_the_edges,
        words_of_every_length,
        single_bits,
    ];
    groups.into_iter().flat_map(|group| group()).collect()
}

// One case of each call. What is lent is full of a byte that no result is full of.

fn write(format: Format, bytes: &[u8], out: usize) -> Case {
    let out = vec![0xDD; out];
    let arguments = vec![number(format as u8), bytes.to_vec().into(), out.into()];
    Case::new(Operation::CorrectionWrite, arguments)
}

fn check_bytes(word: &[u8], out: usize) -> Case {
    let arguments = vec![word.to_vec().into(), vec![0xDD; out].into()];
    Case::new(Operation::CorrectionCheckBytes, arguments)
}

fn header(bytes: &[u8]) -> Case {
    Case::new(Operation::CorrectionHeader, vec![bytes.to_vec().into()])
}

/// Bytes that all differ from their neighbours.
fn bytes(count: usize) -> Vec<u8> {
    (0..count).map(|place| (11 * place + 5) as u8).collect()
}

fn frame(format: Format, n: usize) -> Vec<u8> {
    frame_of(format, &bytes(n)).expect("the length is allowed")
}

// ------------------------------------------------------------------- the groups

/// Every header, then those of other lengths: cut to no byte and to one, and with
/// bytes behind.
fn headers() -> Vec<Case> {
    let mut cases = Vec::new();
    for word in 0..=u16::MAX {
        cases.push(header(&word.to_le_bytes()));
    }
    cases.push(header(&[]));
    for word in [HEADER, HEADER | 0x8000, 0, 0x7FFF] {
        for bytes in [word.to_le_bytes(), word.to_be_bytes()] {
            cases.push(header(&bytes[..1]));
            for behind in [0, 1, 2, 0x04, 0x21, 0xFF] {
                cases.push(header(&[bytes[0], bytes[1], behind]));
                cases.push(header(&[behind, bytes[0], bytes[1]]));
            }
            cases.push(header(&[&bytes[..], &[0xEE; CHECK_BYTES]].concat()));
        }
    }
    cases
}

/// A sound frame of every length, with just enough room and with one byte less.
fn frames_of_every_length() -> Vec<Case> {
    let mut cases = Vec::new();
    for format in Format::ALL {
        for n in Format::SHORTEST..=format.longest() {
            let frame = frame(format, n);
            for room in [CORRECTION - 1, CORRECTION] {
                cases.push(write(format, &frame, frame.len() + room));
            }
        }
    }
    cases
}

/// The shortest frames, those about 223 bytes and the longest: sound, damaged in
/// each of some places, cut, or with bytes behind, and all of this with every
/// room of interest.
fn frames_at_the_edges() -> Vec<Case> {
    let mut cases = Vec::new();
    for format in Format::ALL {
        let mut lengths = about_the_longest(format).to_vec();
        lengths.extend([Format::SHORTEST, Format::SHORTEST + 1, format.longest()]);
        for n in lengths {
            let sound = frame(format, n);
            let size = sound.len();
            let mut buffers = vec![sound.clone()];
            for place in [1, 9, 10, 11, 12, size / 2, size - 2, size - 1] {
                let mut damaged = sound.clone();
                damaged[place] ^= 0x40;
                buffers.push(damaged);
            }
            for bytes in &buffers {
                for left in [0, 1, 2, size / 2, size - 1, size, size + 1, size + 34, 400] {
                    let mut buffer = bytes.clone();
                    buffer.resize(left, 0xEE);
                    for room in edges_of_room(size + CORRECTION) {
                        cases.push(write(format, &buffer, room));
                    }
                }
            }
        }
    }
    cases
}

/// Outputs for a result of this size.
fn edges_of_room(size: usize) -> [usize; 8] {
    [0, 1, CHECK_BYTES, size - 2, size - 1, size, size + 1, 400]
}

/// Every length byte, alone and before bytes without right checks.
fn length_bytes() -> Vec<Case> {
    let mut cases = Vec::new();
    for format in Format::ALL {
        for length in 0..=0xFF {
            for behind in [0, 8, 299] {
                let buffer = [vec![length], bytes(behind)].concat();
                cases.push(write(format, &buffer, 400));
                cases.push(write(format, &buffer, 0));
            }
        }
    }
    cases
}

/// Words about their shortest and longest: zero, full, with zeros in front or
/// behind; each into outputs about 32 bytes.
fn words_at_the_edges() -> Vec<Case> {
    let mut cases = Vec::new();
    for length in [
        0, 1, 2, 31, 32, 33, 222, 223, 224, 225, 255, 256, 257, 300, 479,
    ] {
        let some = bytes(length);
        let half = length / 2;
        let words = [
            vec![0; length],
            vec![0xFF; length],
            [vec![0; length - half], some[..half].to_vec()].concat(),
            [some[..half].to_vec(), vec![0; length - half]].concat(),
            some,
        ];
        for word in words {
            for out in [0, 1, 31, 32, 33, 34, 223, 255, 300] {
                cases.push(check_bytes(&word, out));
            }
        }
    }
    cases
}

/// One byte 1 behind any number of zeros, and any number of bytes: a little beyond
/// the longest word.
fn words_of_every_length() -> Vec<Case> {
    let mut cases = Vec::new();
    for length in 1..=LONGEST_WORD + 40 {
        let mut one = vec![0; length];
        one[length - 1] = 1;
        cases.push(check_bytes(&one, CHECK_BYTES));
        cases.push(check_bytes(&bytes(length), CHECK_BYTES));
    }
    cases
}

/// Every word of 223 bytes with a single bit. The check bytes of any word are the
/// sum of those of its bits.
fn single_bits() -> Vec<Case> {
    let mut cases = Vec::new();
    for place in 0..LONGEST_WORD {
        for bit in 0..8 {
            let mut word = vec![0; LONGEST_WORD];
            word[place] = 1 << bit;
            cases.push(check_bytes(&word, CHECK_BYTES));
        }
    }
    cases
}
