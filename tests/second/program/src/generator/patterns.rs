//! Patterns of wrong bytes in words of all lengths, for a run of many of them. What was
//! written is kept: of at most 16 wrong bytes it is what has to be proposed.

use std::sync::OnceLock;

use super::correction::about_the_longest;
use super::decoding::damage;
use super::mending::{received, Word};
use super::number;
use crate::answer::Answer;
use crate::case::{Case, Operation, Outcome};
use crate::correction::{check_bytes_of, times, CHECK_BYTES, LONGEST_WORD};
use crate::frames::{frame_of, Format};
use crate::random::Random;

pub struct Pattern {
    pub case: Case,
    /// How many bytes are wrong, the length byte none of them.
    pub wrong: usize,
    written: Vec<u8>,
}

impl Pattern {
    /// With so many wrong bytes.
    pub fn new(random: &mut Random, wrong: usize) -> Pattern {
        let format = random.pick(&Format::ALL);
        let written = any_word(random, format);
        let mut heard = written.clone();
        damage(random, &mut heard, wrong);
        let received = received(random, &heard);
        let room = written.bytes.len() + random.below(4);
        let out = random.bytes(room);
        let arguments = vec![number(format as u8), received.into(), out.into()];
        Pattern {
            case: Case::new(Operation::Propose, arguments),
            wrong,
            written: written.bytes,
        }
    }

    /// What the call has to leave where the written word is near: that word, and the
    /// lent bytes behind it as they were.
    pub fn mended(&self) -> Outcome {
        let size = self.written.len();
        let behind = &self.case.bytes("out")[size..];
        Outcome {
            answer: Answer::accepted(&[size as u64]),
            lent: [&self.written, behind].concat(),
        }
    }
}

/// A sound frame of any length that gets check bytes, with them.
fn any_word(random: &mut Random, format: Format) -> Word {
    let [_, longest, _] = about_the_longest(format);
    let length = Format::SHORTEST + random.below(longest - Format::SHORTEST + 1);
    let content = random.bytes(length);
    let frame = frame_of(format, &content).expect("the length is allowed");
    Word::new(&frame, &summed_check_bytes(&frame))
}

/// The check bytes of a frame as the sum of those of its bytes, each alone among
/// zeros. Solving equations for every one of many frames would take too long.
pub fn summed_check_bytes(frame: &[u8]) -> Vec<u8> {
    static OF_ONES: OnceLock<Vec<Vec<u8>>> = OnceLock::new();
    // A byte 1 with so many zeros behind it.
    let of_one = |zeros| {
        let word = [vec![1], vec![0; zeros]].concat();
        check_bytes_of(&word).expect("223 bytes are not too many")
    };
    let of_ones = OF_ONES.get_or_init(|| (0..LONGEST_WORD).map(of_one).collect());
    let mut sum = vec![0; CHECK_BYTES];
    for (&byte, of_one) in frame.iter().rev().zip(of_ones) {
        for (check_byte, &of_one) in sum.iter_mut().zip(of_one) {
            *check_byte ^= times(byte, of_one);
        }
    }
    sum
}
