//! Cases of headers, of what M says, the filter, channels and bands.

use super::{number, output_for, HUGE};
use crate::case::Argument;
use crate::headers::HeaderKind;
use crate::random::Random;

pub fn header_read(random: &mut Random) -> Vec<Argument> {
    let kind = random.pick(&HeaderKind::ALL);
    let length = match random.below(8) {
        0 => 0,
        1 => 1,
        2 => kind.length() - 1,
        3 => kind.length(),
        4 => random.below(18),
        _ => kind.length() + random.below(30),
    };
    let mut body = random.bytes(length);
    if let Some(ci) = body.first_mut() {
        *ci = match random.below(6) {
            0 => random.pick(&[0x86, 0x8B, 0x90, 0x00, 0x78, 0x0C, 0xCC]),
            1 => random.byte(),
            _ => kind.ci(),
        };
    }
    vec![body.into()]
}

pub fn header_write(random: &mut Random) -> Vec<Argument> {
    let kind = random.pick(&HeaderKind::ALL);
    let out = output_for(random, kind.length());
    vec![
        number(kind as u8),
        number(random.byte()),
        number(random.byte()),
        number((random.number() >> 30) as u16),
        random.bytes(6).into(),
        number((random.number() >> 30) as u32),
        random.bytes(2).into(),
        out.into(),
    ]
}

pub fn maker(random: &mut Random) -> Vec<Argument> {
    // Five-bit values about the edges of 1 to 26, with and without the top bit.
    let five_bits = [0, 1, 2, 25, 26, 27, 31];
    let m = if random.once_in(3) {
        (random.number() >> 30) as u16
    } else {
        let top = random.pick(&[0, 0x8000]);
        let three = [(); 3].map(|_| random.pick(&five_bits));
        top + 1024 * three[0] + 32 * three[1] + three[2]
    };
    vec![number(m)]
}

pub fn filter(random: &mut Random) -> Vec<Argument> {
    let mut entries: Vec<Vec<u8>> = (0..16).map(|_| random.bytes(8)).collect();
    let count = match random.below(10) {
        0 => 0,
        1 => 15,
        2 | 3 => 16,
        4 => 17,
        5 => random.pick(&HUGE),
        _ => random.below(17),
    };
    // The content of some entry, in use or not.
    let chosen = match random.below(4) {
        0 => count.min(15),
        1 => count.clamp(1, 16) - 1,
        _ => random.below(16),
    };
    let mut content = vec![random.byte()];
    content.extend(&entries[chosen]);
    let behind = random.below(60);
    content.extend(random.bytes(behind));
    match random.below(10) {
        0 | 1 => {
            // Almost that entry.
            let place = random.below(10).min(content.len() - 1);
            content[place] ^= 1 << random.below(8);
        }
        2 => content.truncate(random.below(12)),
        3 => content.truncate(8),
        4 => content.truncate(9),
        5 | 6 => {
            // What a copy draws moves none of the cases that follow.
            let mut copy = random.clone();
            turn_top_bit(&mut content[1..9]);
            // The entry that now differs in this bit alone, and perhaps an equal one.
            let almost = place_for(&mut copy, count);
            entries.swap(chosen, almost);
            let equal = place_for(&mut copy, count);
            if equal != almost && copy.once_in(2) {
                entries[equal] = content[1..9].to_vec();
            }
        }
        _ => {}
    }
    vec![entries.concat().into(), count.into(), content.into()]
}

/// Turns the top bit of M in the eight bytes of M and A, and so a hard address into
/// a soft one or back (2/14). M has its least significant byte first.
pub fn turn_top_bit(meter: &mut [u8]) {
    meter[1] ^= 0x80;
}

/// A place among the entries: the first, the last in use, the one behind it, or any
/// in use.
fn place_for(random: &mut Random, count: usize) -> usize {
    let count = count.min(16);
    match random.below(5) {
        0 => 0,
        1 => count.saturating_sub(1),
        2 => count.min(15),
        _ => random.below(count),
    }
}

pub fn index(random: &mut Random) -> Argument {
    match random.below(8) {
        0 => random.pick(&HUGE).into(),
        1 => (256 + random.below(16)).into(),
        _ => random.below(16).into(),
    }
}

pub fn channel(random: &mut Random) -> Argument {
    match random.below(8) {
        0 => random.pick(&HUGE).into(),
        1 => (256 + random.below(8)).into(),
        2 => random.below(20).into(),
        _ => random.pick(&[0usize, 1, 3, 4, 5, 6, 7, 8, 17, 18]).into(),
    }
}

pub fn band_input(random: &mut Random) -> Vec<u8> {
    let letter = random.pick(b"ABCDABCD@Eabcd0\n");
    match random.below(10) {
        0 => vec![],
        1 => vec![letter, b'\n', b'\n'],
        2 => vec![letter, b'\r', b'\n'],
        3 => vec![letter, letter],
        4 => vec![b'\n', letter],
        5 => vec![letter, b'\n', letter],
        6 => {
            let length = random.below(5);
            random.bytes(length)
        }
        7 | 8 => vec![letter, b'\n'],
        _ => vec![letter],
    }
}

/// A line's place in a list: about the last of each band's, or anywhere.
pub fn band_place(random: &mut Random) -> usize {
    match random.below(6) {
        0 => random.pick(&[1, 2, 18, 19, 23, 24, 57, 58]),
        1 => random.pick(&HUGE),
        2 => random.below(60),
        _ => random.below(20),
    }
}
