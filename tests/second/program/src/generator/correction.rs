//! Cases of correction bytes (11/14), one call each.

use super::bytes::{buffer_of, content_for, formats, perhaps_damage};
use super::{number, output_for};
use crate::case::Argument;
use crate::correction::{CHECK_BYTES, CORRECTION, HEADER, LONGEST_WORD};
use crate::frames::{frame_of, Format};
use crate::random::Random;

/// The lengths of the contents whose frames have 222, 223 and 224 bytes: the last
/// is the first that gets no check bytes.
pub fn about_the_longest(format: Format) -> [usize; 3] {
    match format {
        // As L, which is n: twelve blocks behind the first.
        Format::A => [195, 196, 197],
        // L is 221, 222 and 223.
        Format::B => [217, 218, 219],
    }
}

/// A content that the format allows: often one that gets check bytes, and often
/// at an edge.
fn content(random: &mut Random, format: Format) -> Vec<u8> {
    let edges = about_the_longest(format);
    let length = match random.below(8) {
        0..=2 => random.pick(&edges),
        3 => Format::SHORTEST + random.below(20),
        4 => format.longest() - random.below(3),
        5 => content_for(random, format).len(),
        _ => Format::SHORTEST + random.below(edges[1] - Format::SHORTEST),
    };
    if random.once_in(16) {
        vec![0; length]
    } else {
        random.bytes(length)
    }
}

pub fn write(random: &mut Random) -> Vec<Argument> {
    let (format, made_as) = formats(random);
    let content = content(random, made_as);
    let mut frame = frame_of(made_as, &content).expect("the length is allowed");
    if random.once_in(2) {
        perhaps_damage(random, &mut frame);
    }
    let bytes = buffer_of(random, frame);
    let promised = match bytes.first().map(|&length| format.sizes(length)) {
        Some(Ok(sizes)) => sizes.frame,
        _ => 20,
    };
    let out = output_for(random, promised + CORRECTION);
    vec![number(format as u8), bytes.into(), out.into()]
}

pub fn check_bytes(random: &mut Random) -> Vec<Argument> {
    let length = match random.below(8) {
        0 => random.below(3),
        1..=2 => LONGEST_WORD - 1 + random.below(3),
        3 => random.pick(&[225, 254, 255, 256, 257, 300, 479, 512]),
        _ => random.below(LONGEST_WORD + 1),
    };
    let mut word = random.bytes(length);
    let place = random.below(length + 1);
    match random.below(10) {
        0 => word[..place].fill(0),
        1 => word[place..].fill(0),
        2 => word.fill(0),
        3 => {
            // One byte alone, if there is one.
            let byte = random.byte();
            word.fill(0);
            if let Some(only) = word.get_mut(place) {
                *only = byte;
            }
        }
        _ => {}
    }
    let out = output_for(random, CHECK_BYTES);
    vec![word.into(), out.into()]
}

pub fn header(random: &mut Random) -> Vec<Argument> {
    let five_bits = random.below(32) as u16;
    let mut header = match random.below(8) {
        0..=1 => HEADER,
        // Wrong bits, one to three of them: perhaps in different copies.
        2 => HEADER ^ (1 << random.below(15)),
        3 => (0..3).fold(HEADER, |header, _| header ^ (1 << random.below(15))),
        // One damaged copy.
        4..=5 => HEADER ^ (five_bits << random.pick(&[0, 5, 10])),
        // Another ID, whole.
        6 => five_bits * HEADER,
        _ => (random.number() >> 30) as u16,
    };
    if random.once_in(3) {
        header |= 0x8000;
    }
    let mut bytes = header.to_le_bytes().to_vec();
    match random.below(12) {
        0 => bytes.clear(),
        1 => bytes.truncate(1),
        2 => bytes.reverse(),
        3 => bytes.push(random.byte()),
        4 => bytes.extend(random.bytes(CHECK_BYTES)),
        _ => {}
    }
    vec![bytes.into()]
}
