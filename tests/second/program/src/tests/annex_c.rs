//! Annex C: the three example frames, as far as they are whole in the text.
//! The tail "01" that C.1 and C.2 count is the postamble, which is left to the
//! radio chip; it is cut off here.

use super::{buffer, bytes, list};
use crate::check::check;
use crate::chips::{encode_list, list_of, Code};
use crate::frames::{content_of, frame_of, Format};
use crate::headers::{access, maker, read, Access, HeaderKind, Maker, Reach};
use crate::radio::{receive, receive_manchester, send};
use crate::sync::Kind;

/// C.2.2: the whole string of bytes, format A. C.1 has the same fields.
pub const C2_FRAME: &str = "0F 44 AE 0C 78 56 34 12 01 07 44 47 78 0B 13 43 65 87 1E 6D";

/// C.2.3: the frame's chips.
const C2_CHIPS: &str = "
    010110101001011100011100100110110010010110110100
    010011101100011001011010001011011100001101001110
    010110001101010110010011011100011100011100010011
    010011101100010110100011001101001011011100001011
    011010011001101100010011001101110010011010110001";

/// C.3.2: the whole string of bytes, format B.
pub const C3_FRAME: &str = "14 44 AE 0C 78 56 34 12 01 07 8C 20 27 78 0B 13 43 65 87 7A C5";

/// C.3.3: the frame's chips.
const C3_CHIPS: &str = "
    0001010001000100101011100000110001111000010101100011010000010010
    0000000100000111100011000010000000100111011110000000101100010011
    0100001101100101100001110111101011000101";

/// C.1: the first whole line of chips that is left, 64 of them: 78 0B 13 43.
const C1_LINE: &str = "1001010101101010101010100110010110101001101001011001101010100101";
/// C.1: the next line, as far as chip 44; behind that the text is damaged.
const C1_NEXT: &str = "1001 0110100110010110101010010101101010010101";

fn content_c2() -> Vec<u8> {
    content_of(Format::A, &bytes(C2_FRAME)).unwrap().0
}

fn content_c3() -> Vec<u8> {
    content_of(Format::B, &bytes(C3_FRAME)).unwrap().0
}

#[test]
fn c2_checks() {
    assert_eq!(check(&bytes("0F 44 AE 0C 78 56 34 12 01 07")), 0x4447);
    assert_eq!(check(&bytes("78 0B 13 43 65 87")), 0x1E6D);
}

#[test]
fn c2_frame_is_written_and_read() {
    let content = bytes("44 AE 0C 78 56 34 12 01 07 78 0B 13 43 65 87");
    assert_eq!(frame_of(Format::A, &content).unwrap(), bytes(C2_FRAME));
    assert_eq!(content_c2(), content);
}

#[test]
fn c2_chips_of_the_frame() {
    assert_eq!(
        encode_list(Code::ThreeOfSix, &bytes(C2_FRAME)),
        list(C2_CHIPS)
    );
}

#[test]
fn c2_total_is_290_chips() {
    // Preamble n × 01 with n = 19, ten sync chips, the frame, the postamble 01.
    assert_eq!(2 * 19 + 10 + list(C2_CHIPS).len() + 2, 290);
}

#[test]
fn c2_is_received_behind_its_preamble() {
    // By 7.4.2.3: 19 × 01 and 0000111101. The sync begins with three of the 01.
    let chips = buffer(&format!("{}0000111101{}01", "01".repeat(19), C2_CHIPS));
    let mut out = [0xEE; 16];
    let got = receive(&chips, 0, usize::MAX, &mut out).unwrap();
    assert_eq!((got.kind, got.place, got.tried), (Kind::TWithA, 32, 33));
    assert_eq!((got.sizes.frame, got.sizes.content), (20, 15));
    assert_eq!(&out[..15], &content_c2()[..]);
    assert_eq!(out[15], 0xEE);
}

#[test]
fn c2_is_received_with_the_header_as_printed() {
    // The printed header has 44 chips, four too few, and still ends in 543Dh.
    let printed = "01010101010101010101010101010101010000111101";
    let chips = buffer(&format!("{printed}{C2_CHIPS}01"));
    let got = receive(&chips, 0, usize::MAX, &mut [0; 15]).unwrap();
    assert_eq!((got.kind, got.place, got.tried), (Kind::TWithA, 28, 29));
}

#[test]
fn c2_is_sent() {
    let mut out = [0xEE; 33];
    assert_eq!(send(Kind::TWithA, &content_c2(), &mut out), Ok(32));
    assert_eq!(
        list_of(&out[..32]),
        list(&format!("0101010000111101{C2_CHIPS}"))
    );
    assert_eq!(out[32], 0xEE);
}

#[test]
fn c1_chips_as_far_as_they_are_printed() {
    let chips = encode_list(Code::Manchester, &bytes(C2_FRAME));
    // Block 2 begins behind the twelve bytes of block 1.
    let block_2 = 12 * 16;
    assert_eq!(chips[block_2..block_2 + 64], list(C1_LINE));
    assert_eq!(chips[block_2 + 64..block_2 + 64 + 44], list(C1_NEXT)[..44]);
}

#[test]
fn c1_total_is_898_chips() {
    // Preamble n × 01 with n = 279 and 18 sync chips, the frame, a tail of 2.
    let frame = encode_list(Code::Manchester, &bytes(C2_FRAME)).len();
    assert_eq!(2 * 279 + 18 + frame + 2, 898);
}

#[test]
fn c1_is_sent_and_received() {
    let mut chips = [0; 40];
    assert_eq!(
        send(Kind::ManchesterWithA, &content_c2(), &mut chips),
        Ok(40)
    );
    assert_eq!(
        list_of(&chips),
        encode_list(Code::Manchester, &bytes(C2_FRAME))
    );
    let mut out = [0; 15];
    let got = receive_manchester(&chips, 0, &mut out).unwrap();
    assert_eq!((got.place, got.tried, got.sizes.frame), (0, 0, 20));
    assert_eq!(&out[..], &content_c2()[..]);
}

#[test]
fn c3_check() {
    let checked = bytes("14 44 AE 0C 78 56 34 12 01 07 8C 20 27 78 0B 13 43 65 87");
    assert_eq!(check(&checked), 0x7AC5);
}

#[test]
fn c3_frame_is_written_and_read() {
    let content = bytes("44 AE 0C 78 56 34 12 01 07 8C 20 27 78 0B 13 43 65 87");
    assert_eq!(frame_of(Format::B, &content).unwrap(), bytes(C3_FRAME));
    assert_eq!(content_c3(), content);
}

#[test]
fn c3_chips_of_the_frame() {
    assert_eq!(encode_list(Code::Nrz, &bytes(C3_FRAME)), list(C3_CHIPS));
}

#[test]
fn c3_is_received_behind_its_preamble() {
    // By 9.4.2: 16 × 01 and the 32 sync chips; 232 chips in all. The header as
    // printed in C.3.3 has 30 chips of these 64 and is not used.
    let sync = "0101010000111101 0101010000111101";
    let text = format!("{}{}{}", "01".repeat(16), sync, C3_CHIPS);
    assert_eq!(list(&text).len(), 232);
    let mut out = [0; 18];
    let got = receive(&buffer(&text), 0, usize::MAX, &mut out).unwrap();
    assert_eq!((got.kind, got.place, got.tried), (Kind::CWithB, 32, 33));
    assert_eq!((got.sizes.frame, got.sizes.content), (21, 18));
    assert_eq!(&out[..], &content_c3()[..]);
}

#[test]
fn c3_is_sent() {
    let mut out = [0; 25];
    assert_eq!(send(Kind::CWithB, &content_c3(), &mut out), Ok(25));
    assert_eq!(out[..4], [0x54, 0x3D, 0x54, 0x3D]);
    assert_eq!(out[4..], bytes(C3_FRAME)[..]);
}

#[test]
fn c3_header_and_names() {
    let header = read(&content_c3()[9..]).unwrap();
    assert_eq!(
        (header.kind, header.cc, header.acc),
        (HeaderKind::Short, 0x20, 0x27)
    );
    assert_eq!(access(header.cc), Access::None);
    // M is the third and fourth byte of the block (12.5.5), of which L is the first.
    let content = content_c3();
    let m = u16::from_le_bytes([content[1], content[2]]);
    assert_eq!(m, 0x0CAE);
    let cen = Maker {
        letters: Some(*b"CEN"),
        reach: Reach::Hard,
    };
    assert_eq!(maker(m), cen);
}

/// Not printed in Annex C: derived from it with the same rules.
#[test]
fn contents_of_the_examples_in_the_other_format() {
    let c2_in_b = frame_of(Format::B, &content_c2()).unwrap();
    assert_eq!(c2_in_b[0], 0x11);
    assert_eq!(c2_in_b[16..], [0xBA, 0xC0]);
    let c3_in_a = frame_of(Format::A, &content_c3()).unwrap();
    assert_eq!(c3_in_a[10..12], [0x8E, 0xFA]);
    assert_eq!(c3_in_a[21..], [0xEE, 0xE9]);
}
