//! Request 2/14, soft addresses: what M says, and M2, and what the filter makes of it.

use crate::filter::wanted;
use crate::headers::{maker, read, write, HeaderKind, Maker, Reach};

const HARD: Reach = Reach::Hard;
const SOFT: Reach = Reach::Soft;

/// The top bit of M.
const TOP: u16 = 0x8000;

fn other(reach: Reach) -> Reach {
    match reach {
        HARD => SOFT,
        SOFT => HARD,
    }
}

/// What the digits of M say: one, then three times five.
fn by_digits(m: u16) -> Maker {
    let digits = format!("{m:016b}");
    let letter = |from: usize| {
        let number = usize::from_str_radix(&digits[from..from + 5], 2).unwrap();
        b" ABCDEFGHIJKLMNOPQRSTUVWXYZ     "[number]
    };
    let letters = [letter(1), letter(6), letter(11)];
    Maker {
        letters: Some(letters).filter(|letters| !letters.contains(&b' ')),
        reach: if digits.starts_with('1') { SOFT } else { HARD },
    }
}

#[test]
fn worked_examples() {
    let examples: [(u16, Option<&[u8; 3]>, Reach); 12] = [
        (0x0443, Some(b"ABC"), HARD),
        (0x8443, Some(b"ABC"), SOFT),
        (0x0CAE, Some(b"CEN"), HARD),
        (0x8CAE, Some(b"CEN"), SOFT),
        (0x6B5A, Some(b"ZZZ"), HARD),
        (0xEB5A, Some(b"ZZZ"), SOFT),
        (0x0421, Some(b"AAA"), HARD),
        (0x8421, Some(b"AAA"), SOFT),
        // Hard or soft is told without letters, too.
        (0x0000, None, HARD),
        (0x7FFF, None, HARD),
        (0x8000, None, SOFT),
        (0xFFFF, None, SOFT),
    ];
    for (m, letters, reach) in examples {
        let letters = letters.copied();
        assert_eq!(maker(m), Maker { letters, reach }, "{m:04x}");
    }
}

#[test]
fn the_top_bit_turned_is_the_other_reach_and_the_same_letters() {
    for m in 0..=u16::MAX {
        let (one, turned) = (maker(m), maker(m ^ TOP));
        assert_eq!(one.letters, turned.letters, "{m:04x}");
        assert_eq!(one.reach, other(turned.reach), "{m:04x}");
        assert_eq!(one, by_digits(m), "{m:04x}");
    }
}

#[test]
fn half_of_all_are_soft_with_letters_and_without() {
    let soft = || (0..=u16::MAX).filter(|&m| maker(m).reach == SOFT);
    assert_eq!(soft().count(), 32_768);
    let named = soft().filter(|&m| maker(m).letters.is_some());
    assert_eq!(named.count(), 26 * 26 * 26);
    assert!(soft().all(|m| m >= TOP));
}

/// 13.2.9: M2 has the form of M. Its least significant byte is first, so that its top
/// bit is bit 7 of byte 4 of the body.
#[test]
fn m2_of_a_header_says_the_same() {
    for kind in [HeaderKind::Address, HeaderKind::AddressAndSession] {
        let mut body: Vec<u8> = (0x10..).take(kind.length()).collect();
        body[0] = kind.ci();
        let mut soft = 0;
        for (low, high) in (0..=0xFFFF).map(|m2| (m2 as u8, (m2 >> 8) as u8)) {
            body[3..5].copy_from_slice(&[low, high]);
            let header = read(&body).unwrap();
            let says = maker(header.m2);
            assert_eq!(says, by_digits(256 * high as u16 + low as u16));
            assert_eq!(says.reach == SOFT, body[4] >> 7 == 1);
            soft += (says.reach == SOFT) as usize;

            // What is written keeps it.
            let mut out = vec![0; kind.length()];
            assert_eq!(write(&header, &mut out), Ok(body.len()));
            assert_eq!(out, body);

            body[4] ^= 0x80;
            let turned = maker(read(&body).unwrap().m2);
            assert_eq!(turned.letters, says.letters);
            assert_eq!(turned.reach, other(says.reach));
        }
        assert_eq!(soft, 32_768);
    }
}

#[test]
fn m2_examples() {
    let says = |m2: [u8; 2]| {
        let body = [&[0x8E, 0x80, 0x01], &m2[..], &[1, 2, 3, 4, 5, 6]].concat();
        let maker = maker(read(&body).unwrap().m2);
        (maker.letters, maker.reach)
    };
    assert_eq!(says([0x43, 0x04]), (Some(*b"ABC"), HARD));
    assert_eq!(says([0x43, 0x84]), (Some(*b"ABC"), SOFT));
    assert_eq!(says([0xAE, 0x0C]), (Some(*b"CEN"), HARD));
    assert_eq!(says([0xAE, 0x8C]), (Some(*b"CEN"), SOFT));
    // Bit 7 of the first byte is a part of the second letter.
    assert_eq!(says([0xC3, 0x04]), (Some(*b"AFC"), HARD));
    assert_eq!(says([0x80, 0x00]), (None, HARD));
    assert_eq!(says([0x00, 0x80]), (None, SOFT));
}

/// The filter compares all eight bytes as received: hard and soft are two meters.
#[test]
fn the_filter_tells_hard_from_soft() {
    let hard = [0x43, 0x04, 0x78, 0x56, 0x34, 0x12, 0x01, 0x07];
    let soft = [0x43, 0x84, 0x78, 0x56, 0x34, 0x12, 0x01, 0x07];
    for (heard, almost) in [(hard, soft), (soft, hard)] {
        let content = [&[0x44], &heard[..], &[0x78]].concat();
        for count in 1..=16 {
            for place in 0..count {
                let mut entries = [[0; 8]; 16];
                entries[place] = almost;
                assert_eq!(wanted(&entries, count, &content), Ok(false));
                for equal in (0..16).filter(|&equal| equal != place) {
                    let mut both = entries;
                    both[equal] = heard;
                    // Wanted where the equal one is in use, before or behind.
                    assert_eq!(wanted(&both, count, &content), Ok(equal < count));
                }
            }
        }
    }
}
