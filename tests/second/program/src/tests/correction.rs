//! Correction bytes: the field and the code by their definitions, Annex C's
//! frames, 11/14's edges and orders, and the header.

use std::collections::BTreeSet;

use super::annex_c::{C2_FRAME, C3_FRAME};
use super::comparing::outcomes;
use super::{bytes, content};
use crate::answer::Refusal;
use crate::case::Operation;
use crate::correction::{
    check_bytes, check_bytes_of, id_of, read_header, roots, times, to_the, value_at, write, ALPHA,
};
use crate::frames::{frame_of, Format};

/// Check bytes in the other way: bytes are multiplied by doubling, the generator
/// is multiplied out from its roots, and the word is divided by it. With other
/// numbers it is another code.
pub struct Division {
    /// The field's polynomial: bit k counts x^k.
    pub field: usize,
    /// The roots are alpha^(step × j), from this j on.
    pub step: usize,
    pub first: usize,
}

impl Division {
    /// As 11/14 has it.
    pub const RIGHT: Division = Division {
        field: 0b1_1000_0111,
        step: 11,
        first: 112,
    };

    fn times(&self, one: u8, other: u8) -> u8 {
        let mut sum = 0;
        let mut doubled = one as usize;
        for bit in 0..8 {
            if (other >> bit) & 1 == 1 {
                sum ^= doubled;
            }
            doubled *= 2;
            if doubled > 0xFF {
                doubled ^= self.field;
            }
        }
        sum as u8
    }

    /// Highest power first.
    fn generator(&self) -> Vec<u8> {
        let mut generator = vec![1];
        for j in self.first..self.first + 32 {
            let root = (0..self.step * j).fold(1, |power, _| self.times(power, 2));
            let before = generator.clone();
            generator.push(0);
            for (place, factor) in before.into_iter().enumerate() {
                generator[place + 1] ^= self.times(factor, root);
            }
        }
        generator
    }

    pub fn check_bytes(&self, word: &[u8]) -> Vec<u8> {
        let generator = self.generator();
        let mut rest = [word, &[0; 32]].concat();
        for place in 0..word.len() {
            let often = rest[place];
            for (power, &factor) in generator.iter().enumerate() {
                rest[place + power] ^= self.times(often, factor);
            }
        }
        rest[word.len()..].to_vec()
    }
}

/// What is written for a frame, in full.
fn written(format: Format, frame: &[u8]) -> Vec<u8> {
    let mut out = [0xEE; 300];
    let size = write(format, frame, &mut out).unwrap();
    assert_eq!(size, frame.len() + 34);
    assert!(out[size..].iter().all(|&byte| byte == 0xEE));
    out[..size].to_vec()
}

// ------------------------------------------------------------ field and code

#[test]
fn alpha_is_a_root_of_the_polynomial_and_reaches_every_byte() {
    // alpha^8 is alpha^7 + alpha^2 + alpha + 1.
    assert_eq!(times(0x80, ALPHA), 0b1000_0111);
    let powers: BTreeSet<u8> = (0..255).map(|power| to_the(ALPHA, power)).collect();
    assert_eq!(powers, (1..=255).collect());
    assert_eq!(to_the(ALPHA, 255), 1);
}

#[test]
fn products_are_those_by_doubling() {
    for one in 0..=255 {
        for other in 0..=255 {
            assert_eq!(times(one, other), Division::RIGHT.times(one, other));
        }
    }
}

#[test]
fn the_roots_are_32_in_pairs() {
    let roots = roots();
    assert_eq!(roots.iter().collect::<BTreeSet<_>>().len(), 32);
    // 11 × 112 is 212 and 11 × 143 is 43, but for multiples of 255.
    assert_eq!(roots[0], to_the(ALPHA, 212));
    assert_eq!(roots[31], to_the(ALPHA, 43));
    for (one, other) in roots.iter().zip(roots.iter().rev()) {
        assert_eq!(times(*one, *other), 1);
    }
}

/// CCSDS 131.0-B expands the generator in an annex, as powers of alpha. Behind a
/// word of the one byte 1 stand the generator's factors but for its first.
#[test]
fn the_generator_is_the_one_that_ccsds_prints() {
    let printed = [
        249, 59, 66, 4, 43, 126, 251, 97, 30, 3, 213, 50, 66, 170, 5, 24, 5, 170, 66, 50, 213, 3,
        30, 97, 251, 126, 43, 4, 66, 59, 249, 0,
    ];
    let factors = printed.map(|power| to_the(ALPHA, power));
    assert_eq!(check_bytes_of(&[1]).unwrap(), factors);
}

#[test]
fn solving_equations_gives_what_dividing_gives() {
    for length in 0..=223 {
        let word = content(length);
        let divided = Division::RIGHT.check_bytes(&word);
        assert_eq!(check_bytes_of(&word).unwrap(), divided, "{length}");
    }
}

/// The frame with its check bytes, without the header, is 0 at every root: each
/// byte times the root to the byte's power, added up. It is not 0 at the
/// neighbours of the roots.
#[test]
fn every_written_word_is_a_code_word() {
    let powers_of = |root| -> Vec<u8> { (0..255).map(|power| to_the(root, power)).collect() };
    let powers: Vec<Vec<u8>> = (111..=144)
        .map(|j| powers_of(to_the(ALPHA, 11 * j)))
        .collect();
    for (format, longest) in [(Format::A, 196), (Format::B, 218)] {
        for n in 10..=longest {
            let frame = frame_of(format, &content(n)).unwrap();
            let all = written(format, &frame);
            let (front, behind) = all.split_at(frame.len());
            let word = [front, &behind[2..]].concat();
            let values: Vec<u8> = powers
                .iter()
                .map(|powers| {
                    let summands = word.iter().rev().zip(powers);
                    summands.fold(0, |sum, (&byte, &power)| sum ^ times(byte, power))
                })
                .collect();
            assert_eq!(values[1..33], [0; 32], "{format:?} {n}");
            assert_ne!((values[0], values[33]), (0, 0), "{format:?} {n}");
        }
    }
}

#[test]
fn no_byte_of_a_code_word_can_change() {
    let frame = frame_of(Format::B, &content(218)).unwrap();
    let word = [frame.clone(), check_bytes_of(&frame).unwrap()].concat();
    assert_eq!(word.len(), 255);
    let is_code_word = |word: &[u8]| roots().iter().all(|&root| value_at(word, root) == 0);
    assert!(is_code_word(&word));
    for place in 0..255 {
        let mut changed = word.clone();
        changed[place] ^= 0x10;
        assert!(!is_code_word(&changed), "{place}");
    }
}

#[test]
fn zeros_before_a_word_change_nothing() {
    let word = content(20);
    let right = check_bytes_of(&word).unwrap();
    for zeros in [1, 2, 32, 202, 203] {
        let longer = [vec![0; zeros], word.clone()].concat();
        assert_eq!(check_bytes_of(&longer).unwrap(), right);
        let behind = [word.clone(), vec![0; zeros]].concat();
        assert_ne!(check_bytes_of(&behind).unwrap(), right);
    }
    for zeros in [0, 1, 223] {
        assert_eq!(check_bytes_of(&vec![0; zeros]).unwrap(), [0; 32]);
    }
}

// ----------------------------------------------------------------- Annex C

/// Two frames of Annex C, which has no correction bytes. The check bytes beside them
/// were handed to this program, and it had to come to the same by itself.
pub const ANNEX_C: [(Format, &str, &str); 2] = [
    (
        Format::A,
        C2_FRAME,
        "84EA276958EC76A29678BF51DFED7661D46D36B8523BAE787CEFFD7B007EC9C6",
    ),
    (
        Format::B,
        C3_FRAME,
        "9B45F38E71EAB5DBC80186029EF980E188F8368D983CA055F21D5F34D4E85935",
    ),
];

#[test]
fn frames_of_annex_c_with_their_correction_bytes() {
    for (format, frame, check_bytes) in ANNEX_C {
        let all = bytes(&format!("{frame} 2104 {check_bytes}"));
        assert_eq!(written(format, &bytes(frame)), all);
        assert_eq!(read_header(&all[all.len() - 34..]), Ok(()));
    }
}

// ---------------------------------------------------------- edges and orders

/// Runs something on lent memory that must refuse, and looks whether the memory
/// stayed.
fn refused(size: usize, call: impl FnOnce(&mut [u8]) -> Result<usize, Refusal>) -> Refusal {
    let mut lent = vec![0xEE; size];
    let refusal = call(&mut lent).unwrap_err();
    assert_eq!(lent, vec![0xEE; size]);
    refusal
}

#[test]
fn frames_of_223_bytes_are_the_longest() {
    // Content, frame, and whether it gets correction bytes.
    for (format, n, size, fits) in [
        (Format::A, 10, 15, true),
        (Format::A, 195, 222, true),
        (Format::A, 196, 223, true),
        (Format::A, 197, 224, false),
        (Format::A, 255, 290, false),
        (Format::B, 10, 13, true),
        (Format::B, 217, 222, true),
        (Format::B, 218, 223, true),
        (Format::B, 219, 224, false),
        (Format::B, 251, 256, false),
    ] {
        let frame = frame_of(format, &content(n)).unwrap();
        assert_eq!(frame.len(), size);
        let mut out = [0; 400];
        let expected = if fits {
            Ok(size + 34)
        } else {
            Err(Refusal::TooLongForCorrection)
        };
        assert_eq!(write(format, &frame, &mut out), expected);
    }
}

#[test]
fn writing_refuses_1_2_1_3_23_4() {
    let go = |bytes: &[u8], room| refused(room, |out| write(Format::A, bytes, out));
    assert_eq!(go(&[], 400), Refusal::Ends);
    assert_eq!(go(&[9], 400), Refusal::LengthNotAllowed);
    assert_eq!(go(&[10], 400), Refusal::Ends);

    let long = frame_of(Format::A, &content(255)).unwrap();
    let mut damaged = long.clone();
    damaged[289] ^= 1;
    assert_eq!(go(&long, 400), Refusal::TooLongForCorrection);
    assert_eq!(go(&long, 0), Refusal::TooLongForCorrection);
    assert_eq!(go(&damaged, 0), Refusal::WrongCheck { block: 17 });
    assert_eq!(go(&long[..289], 0), Refusal::Ends);
    damaged[1] ^= 1;
    assert_eq!(go(&damaged, 0), Refusal::WrongCheck { block: 1 });
    assert_eq!(go(&damaged[..289], 0), Refusal::Ends);

    let short = frame_of(Format::A, &content(196)).unwrap();
    let mut damaged = short.clone();
    damaged[222] ^= 1;
    assert_eq!(go(&damaged, 0), Refusal::WrongCheck { block: 13 });
    for room in [0, 34, 223, 255, 256] {
        assert_eq!(go(&short, room), Refusal::OutputTooSmall);
    }
    assert_eq!(write(Format::A, &short, &mut [0; 257]), Ok(257));
    let block = |format, bytes: &[u8]| refused(0, |out| write(format, bytes, out));
    assert_eq!(block(Format::B, &[11]), Refusal::LengthNotAllowed);
    assert_eq!(block(Format::B, &[128]), Refusal::LengthNotAllowed);
    assert_eq!(
        block(Format::B, &[255; 256]),
        Refusal::WrongCheck { block: 1 }
    );
}

#[test]
fn what_stands_behind_the_frame_is_not_looked_at() {
    for format in Format::ALL {
        let frame = frame_of(format, &content(30)).unwrap();
        for behind in [1, 2, 34, 300] {
            let buffer = [frame.clone(), vec![0xAB; behind]].concat();
            let mut out = [0; 100];
            let size = write(format, &buffer, &mut out).unwrap();
            assert_eq!(out[..size], written(format, &frame));
        }
    }
}

#[test]
fn check_bytes_alone_refuse_23_then_4() {
    let go = |length, room| refused(room, |out| check_bytes(&content(length), out));
    assert_eq!(go(224, 32), Refusal::TooLongForCorrection);
    assert_eq!(go(224, 0), Refusal::TooLongForCorrection);
    assert_eq!(go(500, 31), Refusal::TooLongForCorrection);
    // Zeros in front make no word shorter.
    let zeros = refused(32, |out| check_bytes(&[0; 224], out));
    assert_eq!(zeros, Refusal::TooLongForCorrection);
    for length in [0, 1, 222, 223] {
        assert_eq!(go(length, 31), Refusal::OutputTooSmall);
        assert_eq!(go(length, 0), Refusal::OutputTooSmall);
        let mut out = [0xEE; 33];
        assert_eq!(check_bytes(&content(length), &mut out), Ok(32));
        assert_eq!(out[..32], check_bytes_of(&content(length)).unwrap());
        assert_eq!(out[32], 0xEE);
    }
}

// ------------------------------------------------------------------ header

#[test]
fn a_header_needs_two_bytes_low_byte_first() {
    assert_eq!(read_header(&[]), Err(Refusal::Ends));
    assert_eq!(read_header(&[0x21]), Err(Refusal::Ends));
    assert_eq!(read_header(&[0x21, 0x04]), Ok(()));
    assert_eq!(read_header(&[0x21, 0x04, 0xFF]), Ok(()));
    assert_eq!(read_header(&[0x04, 0x21]), Err(Refusal::AnotherCode));
    assert_eq!(read_header(&[0x00, 0x21, 0x04]), Err(Refusal::AnotherCode));
}

#[test]
fn bit_15_is_not_looked_at() {
    assert_eq!(read_header(&[0x21, 0x84]), Ok(()));
    for header in 0..0x8000 {
        assert_eq!(id_of(header), id_of(header | 0x8000));
    }
}

/// Table 40, and each copy damaged alone in every way.
#[test]
fn two_copies_carry_the_id() {
    assert_eq!(id_of(0x0000), 0);
    assert_eq!(id_of(0x0421), 1);
    assert_eq!(id_of(0x7FFF), 0x1F);
    for id in 0..32u16 {
        for damage in 0..32 {
            for copy in 0..3 {
                let header = (id + 32 * id + 1024 * id) ^ (damage << (5 * copy));
                assert_eq!(id_of(header), id as usize);
            }
        }
    }
}

/// The vote is taken bit by bit: here no two copies are the same.
#[test]
fn each_bit_has_a_vote_of_its_own() {
    assert_eq!(id_of(0b0_00011_00101_01001), 1);
    assert_eq!(id_of(0b0_00011_00110_00000), 2);
    assert_eq!(id_of(0b0_10000_01000_00001), 0);
}

/// Of the eight ways in which three copies of a bit can stand, four are for each
/// value: 4^5 headers have the ID 1, with bit 15 as it likes.
#[test]
fn as_many_headers_as_the_votes_allow_are_accepted() {
    let accepted = |header: &u16| read_header(&header.to_le_bytes()).is_ok();
    assert_eq!((0..=u16::MAX).filter(accepted).count(), 2 * 4usize.pow(5));
}

// ------------------------------------------------------- what the cases reach

/// Both formats with frames on each side of 223 bytes: accepted, refused for each
/// reason, with bytes behind, and with room on each side of the result's size.
#[test]
fn cases_of_frames_meet_the_edges() {
    let mut met = BTreeSet::new();
    for (case, outcome) in outcomes(Operation::CorrectionWrite, 6000) {
        let format = Format::ALL[case.number("format") as usize];
        let buffer = case.bytes("bytes");
        let Some(Ok(sizes)) = buffer.first().map(|&length| format.sizes(length)) else {
            continue;
        };
        let number = outcome.answer.number;
        let room = case.bytes("out").len() as i64 - sizes.frame as i64 - 34;
        let behind = buffer.len() > sizes.frame;
        met.insert((format as u8, sizes.frame, number, behind, room.clamp(-2, 2)));
    }
    for (format, shortest, longest) in [(Format::A, 15, 290), (Format::B, 13, 256)] {
        let has =
            |size, number, behind, room| met.contains(&(format as u8, size, number, behind, room));
        for size in [222, 223] {
            for behind in [false, true] {
                assert!((0..=2).all(|room| has(size, 0, behind, room)), "{size}");
                assert!((-2..=-1).all(|room| has(size, 4, behind, room)), "{size}");
                assert!((-2..=2).any(|room| has(size, 3, behind, room)), "{size}");
            }
        }
        assert!((0..=2).all(|room| has(shortest, 0, false, room)));
        for size in [224, longest] {
            // No room at all, and enough of it.
            for room in [-2, 0, 2] {
                assert!(has(size, 23, false, room), "{size} {room}");
                assert!(has(size, 3, false, room), "{size} {room}");
                assert!(has(size, 1, false, room), "{size} {room}");
            }
            assert!((-2..=2).any(|room| has(size, 23, true, room)), "{size}");
        }
    }
}

#[test]
fn cases_of_words_meet_the_edges() {
    let mut met = BTreeSet::new();
    let mut zeros = BTreeSet::new();
    for (case, _) in outcomes(Operation::CorrectionCheckBytes, 6000) {
        let word = case.bytes("word");
        met.insert((word.len(), case.bytes("out").len()));
        if word.first() == Some(&0) {
            let all = word.iter().all(|&byte| byte == 0);
            zeros.insert((word.len(), all));
        }
    }
    for length in [0, 1, 222, 223, 224] {
        assert!(
            [31, 32, 33].iter().all(|&out| met.contains(&(length, out))),
            "{length}"
        );
    }
    for length in [222, 223, 224] {
        assert!(
            zeros.contains(&(length, true)) && zeros.contains(&(length, false)),
            "{length}"
        );
    }
}

#[test]
fn cases_of_headers_meet_the_edges() {
    let mut lengths = BTreeSet::new();
    let mut headers = BTreeSet::new();
    for (case, _) in outcomes(Operation::CorrectionHeader, 6000) {
        let bytes = case.bytes("bytes");
        lengths.insert(bytes.len().min(4));
        if let &[low, high] = bytes {
            headers.insert(u16::from_le_bytes([low, high]));
        }
    }
    assert_eq!(lengths, (0..=4).collect());
    assert!(headers.contains(&0x0421) && headers.contains(&0x8421));
    // Every copy with every bit of it wrong, alone, and every other ID.
    assert!((0..15).all(|bit| headers.contains(&(0x0421 ^ (1 << bit)))));
    assert!((0..32).all(|id| headers.contains(&(id * 0x0421))));
}
