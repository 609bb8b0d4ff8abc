//! Cases of the check and of frames as bytes.

use super::{number, output_for, HUGE};
use crate::case::Argument;
use crate::frames::{frame_of, Format};
use crate::random::Random;

pub fn check(random: &mut Random) -> Vec<Argument> {
    let bytes = match random.below(12) {
        0 => Vec::new(),
        1 => b"123456789".to_vec(),
        2 => vec![random.below(3) as u8],
        3 => vec![0; random.below(300)],
        _ => {
            let length = random.below(300);
            random.bytes(length)
        }
    };
    vec![bytes.into()]
}

pub fn check_update(random: &mut Random) -> Vec<Argument> {
    let distance = match random.below(8) {
        0 => 0,
        1 => 124 + random.below(3),
        2 => 125,
        3 => 126,
        4 => random.pick(&HUGE),
        _ => random.below(126),
    };
    let old_byte = random.byte();
    let new_byte = if random.once_in(8) {
        old_byte
    } else {
        random.byte()
    };
    let old_check = (random.number() >> 30) as u16;
    vec![
        number(old_check),
        number(old_byte),
        number(new_byte),
        distance.into(),
    ]
}

/// A content that the format allows, often at an edge of its blocks.
pub fn content_for(random: &mut Random, format: Format) -> Vec<u8> {
    let edges = [
        10, 11, 24, 25, 26, 41, 42, 124, 125, 126, 127, 250, 251, 252, 254, 255,
    ];
    let length = if random.once_in(2) {
        random.pick(&edges).min(format.longest())
    } else {
        Format::SHORTEST + random.below(format.longest() - Format::SHORTEST + 1)
    };
    random.bytes(length)
}

/// A content of any length, also one that no frame has.
pub fn any_content(random: &mut Random, format: Format) -> Vec<u8> {
    let outside = [0, 1, 8, 9, 252, 253, 255, 256, 257, 300, 511, 512];
    if random.once_in(4) {
        let length = random.pick(&outside);
        random.bytes(length)
    } else {
        content_for(random, format)
    }
}

/// A length byte, often at an edge of either format.
pub fn any_length(random: &mut Random) -> u8 {
    let edges = [
        0, 1, 9, 10, 11, 12, 13, 126, 127, 128, 129, 130, 131, 254, 255,
    ];
    if random.once_in(2) {
        random.pick(&edges)
    } else {
        random.byte()
    }
}

/// A valid frame.
pub fn valid_frame(random: &mut Random, format: Format) -> Vec<u8> {
    let content = content_for(random, format);
    frame_of(format, &content).expect("the length is allowed")
}

/// A frame: valid in every other case, else damaged.
pub fn perhaps_damaged_frame(random: &mut Random, format: Format) -> Vec<u8> {
    let mut frame = valid_frame(random, format);
    perhaps_damage(random, &mut frame);
    frame
}

/// In every other case one wrong bit or byte, two wrong bits, or a wrong L.
pub fn perhaps_damage(random: &mut Random, frame: &mut [u8]) {
    let place = random.below(frame.len());
    match random.below(14) {
        0 | 1 => frame[place] ^= 1 << random.below(8),
        2 => frame[place] = random.byte(),
        3 | 4 => frame[0] = any_length(random),
        5 => *frame.last_mut().expect("not empty") ^= 1,
        6 => {
            // Two wrong places: the first wrong block is the one to name.
            frame[place] ^= 0x10;
            let other = random.below(frame.len());
            frame[other] ^= 0x01;
        }
        _ => {}
    }
}

/// A byte buffer that begins with a frame, as `buffer_of` makes it.
pub fn frame_buffer(random: &mut Random, format: Format) -> Vec<u8> {
    let frame = perhaps_damaged_frame(random, format);
    buffer_of(random, frame)
}

/// A byte buffer for a frame: perhaps with bytes behind it, or cut short; now and
/// then no frame at all.
pub fn buffer_of(random: &mut Random, frame: Vec<u8>) -> Vec<u8> {
    let mut bytes = frame;
    match random.below(20) {
        0 => bytes.clear(),
        1 => bytes = vec![any_length(random)],
        2 => {
            let length = random.below(400);
            bytes = random.bytes(length);
        }
        3 | 4 => {
            let left = bytes.len() - 1 - random.below(3);
            bytes.truncate(left);
        }
        5 => {
            let left = random.below(bytes.len());
            bytes.truncate(left);
        }
        6..=9 => {
            let more = random.below(30);
            bytes.extend(random.bytes(more));
        }
        _ => {}
    }
    bytes
}

/// The content size that L promises, for choosing a lent output.
pub fn promised_content(format: Format, bytes: &[u8]) -> usize {
    match bytes.first().map(|&length| format.sizes(length)) {
        Some(Ok(sizes)) => sizes.content,
        _ => 20,
    }
}

pub fn any_format(random: &mut Random) -> Format {
    random.pick(&Format::ALL)
}

/// The format by which a frame is read, and the one in which it was made: now and
/// then a frame of one format is read as the other.
pub fn formats(random: &mut Random) -> (Format, Format) {
    let format = any_format(random);
    let made_as = if random.once_in(12) {
        any_format(random)
    } else {
        format
    };
    (format, made_as)
}

pub fn frame_read(random: &mut Random) -> Vec<Argument> {
    let (format, made_as) = formats(random);
    let bytes = frame_buffer(random, made_as);
    let out = output_for(random, promised_content(format, &bytes));
    vec![number(format as u8), bytes.into(), out.into()]
}

pub fn frame_write(random: &mut Random) -> Vec<Argument> {
    let format = any_format(random);
    let content = any_content(random, format);
    let size = frame_of(format, &content).map_or(300, |frame| frame.len());
    let out = output_for(random, size);
    vec![number(format as u8), content.into(), out.into()]
}

pub fn frame_change(random: &mut Random) -> Vec<Argument> {
    let format = any_format(random);
    let frame = frame_buffer(random, format);
    let n = promised_content(format, &frame);
    let place = match random.below(14) {
        0 => 0,
        1 => n - 1,
        2 => n,
        3 => n + 1,
        4 => random.pick(&HUGE),
        5 => 124 + random.below(3),
        6 => 8 + random.below(3),
        _ => random.below(n),
    };
    // Now and then the byte that may stand there already.
    let byte = match frame.get(place.saturating_add(1)) {
        Some(&same) if random.once_in(4) => same,
        _ => random.byte(),
    };
    vec![
        number(format as u8),
        frame.into(),
        place.into(),
        number(byte),
    ]
}

pub fn frame_size(random: &mut Random) -> Vec<Argument> {
    vec![number(any_format(random) as u8), number(any_length(random))]
}
