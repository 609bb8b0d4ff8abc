//! Document 01, "Answer numbers": each refusal, its order and its value, and
//! that lent memory stays.

use super::{buffer, content, list};
use crate::answer::Refusal;
use crate::chips::{decode, encode, encode_list, packed, word, Code};
use crate::filter::wanted;
use crate::frames::{change, frame_of, read, write, Format, Sizes};
use crate::headers::{self, Header, HeaderKind};
use crate::radio::{receive, receive_manchester, send};
use crate::reader::{listing, Reader};
use crate::sync::{search, Found, Kind};

/// Runs something on lent memory that must refuse, and looks whether the memory
/// stayed.
fn refused<T: std::fmt::Debug>(
    size: usize,
    call: impl FnOnce(&mut [u8]) -> Result<T, Refusal>,
) -> Refusal {
    let before: Vec<u8> = (0..size).map(|place| 0xA0 ^ place as u8).collect();
    let mut lent = before.clone();
    let refusal = call(&mut lent).unwrap_err();
    assert_eq!(lent, before);
    refusal
}

// ----------------------------------------------------------------- line codes

#[test]
fn decoding_refuses_10_first() {
    let too_long = [0; 1025];
    let go = |chips: &[u8], start| refused(0, |out| decode(Code::Manchester, chips, start, 1, out));
    assert_eq!(go(&too_long, 0), Refusal::OutOfRange);
    assert_eq!(go(&[0; 2], 17), Refusal::OutOfRange);
    assert_eq!(go(&[], 1), Refusal::OutOfRange);
    assert_eq!(go(&[0; 2], usize::MAX), Refusal::OutOfRange);
    // At the chip count there are just no chips left.
    assert_eq!(go(&[0; 2], 16), Refusal::Ends);
    assert_eq!(go(&[], 0), Refusal::Ends);
}

#[test]
fn decoding_refuses_1_before_6_before_4() {
    // Two bytes of Manchester are four bytes of chips; all words are wrong.
    let go = |chips: &[u8], n| refused(0, |out| decode(Code::Manchester, chips, 0, n, out));
    assert_eq!(go(&[0; 3], 2), Refusal::Ends);
    assert_eq!(go(&[0; 4], 2), Refusal::NotACodeWord { word: 0 });
    assert_eq!(go(&[0xAA; 4], 2), Refusal::OutputTooSmall);
    assert_eq!(go(&[0xAA, 0xAB], 1), Refusal::NotACodeWord { word: 7 });
}

#[test]
fn decoding_counts_words_from_its_start() {
    let mut chips = list("110");
    chips.extend(encode_list(Code::ThreeOfSix, &[0x12, 0x34]));
    chips.extend(list("010101"));
    chips.extend(list("010110"));
    let chips = packed(&chips);
    let mut out = [0; 2];
    assert_eq!(decode(Code::ThreeOfSix, &chips, 3, 2, &mut out), Ok(2));
    assert_eq!(out, [0x12, 0x34]);
    let refusal = refused(3, |out| decode(Code::ThreeOfSix, &chips, 3, 3, out));
    assert_eq!(refusal, Refusal::NotACodeWord { word: 4 });
    let refusal = refused(3, |out| decode(Code::ThreeOfSix, &chips, 15, 2, out));
    assert_eq!(refusal, Refusal::NotACodeWord { word: 2 });
}

#[test]
fn no_number_of_bytes_wraps_around() {
    for code in Code::ALL {
        for shift in 0..64 {
            let n = usize::MAX >> shift;
            if n > 1024 {
                let go = |n| refused(4, |out| decode(code, &[0x55; 1024], 8, n, out));
                assert_eq!(go(n), Refusal::Ends);
                assert_eq!(go(n - n / 2), Refusal::Ends);
            }
        }
    }
}

#[test]
fn nothing_is_decoded_and_encoded_into_nothing() {
    for code in Code::ALL {
        assert_eq!(decode(code, &[], 0, 0, &mut []), Ok(0));
        assert_eq!(decode(code, &[0; 1024], 8192, 0, &mut []), Ok(0));
        assert_eq!(encode(code, &[], &mut []), Ok(0));
    }
}

#[test]
fn longest_buffer_is_decoded() {
    let chips = [0x3C; 1024];
    let mut out = [0; 1024];
    assert_eq!(decode(Code::Nrz, &chips, 0, 1024, &mut out), Ok(1024));
    assert_eq!(out, chips);
}

#[test]
fn encoding_refuses_4_and_sets_unused_chips_to_0() {
    let go = |size| {
        refused(size, |out| {
            encode(Code::ThreeOfSix, &[0x44, 0x44, 0x44], out)
        })
    };
    assert_eq!(go(4), Refusal::OutputTooSmall);
    assert_eq!(go(0), Refusal::OutputTooSmall);
    // 36 chips: five bytes, the last four chips unused.
    let mut out = [0xFF; 6];
    assert_eq!(
        encode(Code::ThreeOfSix, &[0x44, 0x44, 0x44], &mut out),
        Ok(5)
    );
    assert_eq!(out, [0x71, 0xC7, 0x1C, 0x71, 0xC0, 0xFF]);
}

#[test]
fn one_word_at_a_chip() {
    let chips = buffer("011100 01 10 11 00000000");
    assert_eq!(word(Code::ThreeOfSix, &chips, 0), Ok(4));
    assert_eq!(word(Code::Manchester, &chips, 6), Ok(1));
    assert_eq!(word(Code::Manchester, &chips, 8), Ok(0));
    let wrong = Err(Refusal::NotACodeWord { word: 0 });
    assert_eq!(word(Code::Manchester, &chips, 10), wrong);
    assert_eq!(word(Code::Nrz, &chips, 10), Ok(0b11000000));
    // 24 chips: six are left, which is enough for six and not for eight.
    assert_eq!(word(Code::Nrz, &chips, 18), Err(Refusal::Ends));
    assert_eq!(word(Code::ThreeOfSix, &chips, 18), wrong);
    assert_eq!(word(Code::Nrz, &[0], 8), Err(Refusal::Ends));
    assert_eq!(word(Code::Nrz, &[0], 9), Err(Refusal::OutOfRange));
    assert_eq!(word(Code::Nrz, &[0; 1025], 0), Err(Refusal::OutOfRange));
    assert_eq!(word(Code::Nrz, &[0; 1024], 0), Ok(0));
}

#[test]
fn chip_reader_keeps_its_place() {
    let chips = buffer("011100 01 10 11 00000000");
    let mut reader = Reader::new(&chips, 0);
    assert_eq!(reader.next(Code::ThreeOfSix), Ok(4));
    assert_eq!(reader.next(Code::Manchester), Ok(1));
    assert_eq!(reader.next(Code::Manchester), Ok(0));
    assert_eq!(reader.place(), 10);
    let wrong = Err(Refusal::NotACodeWord { word: 0 });
    assert_eq!(reader.next(Code::Manchester), wrong);
    assert_eq!(reader.place(), 10);
    assert_eq!(reader.next(Code::Nrz), Ok(0b11000000));
    assert_eq!(reader.place(), 18);
    assert_eq!(reader.next(Code::Nrz), Err(Refusal::Ends));
    assert_eq!(reader.next(Code::ThreeOfSix), wrong);
    assert_eq!(reader.place(), 18);
}

#[test]
fn chip_reader_is_not_made() {
    for (chips, start) in [(&[0; 1][..], 9), (&[0; 1025], 0), (&[0; 1025], 7)] {
        let mut reader = Reader::new(chips, start);
        for _ in 0..2 {
            assert_eq!(reader.place(), 0);
            assert_eq!(reader.next(Code::Nrz), Err(Refusal::OutOfRange));
        }
    }
    // At the chip count it is made, and there is no word.
    let mut reader = Reader::new(&[0], 8);
    assert_eq!(reader.next(Code::Nrz), Err(Refusal::Ends));
    assert_eq!(reader.place(), 8);
}

#[test]
fn what_the_words_program_prints() {
    let text = |input: &[u8]| listing(input);
    // 44h in three-of-six, then 21, which is no code word (error 2).
    let chips = b"\0\0\0\0\0\0\0\0\x71\xC5\x40";
    let words = "number place value\n0 6 4\n0 12 4\n6 12 0\n";
    assert_eq!(text(&[b"T", &chips[..]].concat()), words);
    let again = format!("{words}6 12 0\n");
    assert_eq!(text(&[b"t", &chips[..]].concat()), again);
    // A start above the chip count: refused when made, and at place 0.
    let start = b"\0\0\0\0\0\0\0\x09\x71";
    let refused = "number place value\n10 0 0\n";
    assert_eq!(text(&[b"M", &start[..]].concat()), refused);
    let again = format!("{refused}10 0 0\n");
    assert_eq!(text(&[b"m", &start[..]].concat()), again);
    for input in [&b""[..], b"T", b"TTTTTTTT", b"X\0\0\0\0\0\0\0\0\x71"] {
        assert_eq!(text(input), "no such reader\n");
    }
}

// --------------------------------------------------------------------- search

#[test]
fn search_counts_positions() {
    // The sync stands at place 5; 5 + 16 + 11 = 32 chips, 17 positions.
    let chips = buffer("11111 0101010000111101 11111111111");
    assert_eq!(
        search(&chips, 0, usize::MAX),
        Ok(Found { place: 5, tried: 6 })
    );
    assert_eq!(search(&chips, 0, 6), Ok(Found { place: 5, tried: 6 }));
    assert_eq!(
        search(&chips, 0, 5),
        Err(Refusal::AllowanceUsedUp { tried: 5 })
    );
    assert_eq!(
        search(&chips, 0, 0),
        Err(Refusal::AllowanceUsedUp { tried: 0 })
    );
    assert_eq!(search(&chips, 5, 1), Ok(Found { place: 5, tried: 1 }));
    assert_eq!(
        search(&chips, 6, usize::MAX),
        Err(Refusal::NoSync { tried: 11 })
    );
    assert_eq!(search(&chips, 6, 11), Err(Refusal::NoSync { tried: 11 }));
    assert_eq!(
        search(&chips, 6, 10),
        Err(Refusal::AllowanceUsedUp { tried: 10 })
    );
}

#[test]
fn search_at_the_end_of_the_chips() {
    let chips = [0x54, 0x3D];
    assert_eq!(search(&chips, 0, 1), Ok(Found { place: 0, tried: 1 }));
    assert_eq!(search(&chips, 1, 0), Err(Refusal::NoSync { tried: 0 }));
    assert_eq!(
        search(&chips, 1, usize::MAX),
        Err(Refusal::NoSync { tried: 0 })
    );
    assert_eq!(search(&chips, 16, 0), Err(Refusal::NoSync { tried: 0 }));
    assert_eq!(search(&chips, 17, 0), Err(Refusal::OutOfRange));
    assert_eq!(search(&[0x54], 0, 1), Err(Refusal::NoSync { tried: 0 }));
    assert_eq!(search(&[], 0, 0), Err(Refusal::NoSync { tried: 0 }));
    assert_eq!(search(&[], 1, 0), Err(Refusal::OutOfRange));
    assert_eq!(search(&[0; 1025], 0, 0), Err(Refusal::OutOfRange));
    assert_eq!(
        search(&[0; 1024], 0, usize::MAX),
        Err(Refusal::NoSync { tried: 8177 })
    );
    let mut longest = [0; 1024];
    longest[1022..].copy_from_slice(&chips);
    assert_eq!(
        search(&longest, 0, usize::MAX),
        Ok(Found {
            place: 8176,
            tried: 8177
        })
    );
}

// --------------------------------------------------------------------- frames

#[test]
fn reading_refuses_in_order() {
    let go = |bytes: &[u8], size| refused(size, |out| read(Format::A, bytes, out));
    let frame = frame_of(Format::A, &content(26)).unwrap();
    assert_eq!(go(&[], 0), Refusal::Ends);
    assert_eq!(go(&[9], 0), Refusal::LengthNotAllowed);
    assert_eq!(go(&[10], 0), Refusal::Ends);
    let mut wrong = frame.clone();
    wrong[28] ^= 1;
    wrong[32] ^= 1;
    assert_eq!(go(&wrong[..32], 0), Refusal::Ends);
    assert_eq!(go(&wrong, 0), Refusal::WrongCheck { block: 2 });
    assert_eq!(go(&frame, 25), Refusal::OutputTooSmall);
    assert_eq!(go(&frame, 0), Refusal::OutputTooSmall);
    let mut out = [0xEE; 27];
    let sizes = Sizes {
        frame: 33,
        content: 26,
    };
    assert_eq!(read(Format::A, &frame, &mut out), Ok(sizes));
    assert_eq!(out[..26], content(26)[..]);
    assert_eq!(out[26], 0xEE);
}

#[test]
fn reading_leaves_bytes_behind_the_frame_alone() {
    let mut bytes = frame_of(Format::B, &content(126)).unwrap();
    bytes.extend([1, 2, 3]);
    let mut out = [0; 126];
    let sizes = Sizes {
        frame: 131,
        content: 126,
    };
    assert_eq!(read(Format::B, &bytes, &mut out), Ok(sizes));
    assert_eq!(out[..], content(126)[..]);
}

#[test]
fn every_block_is_named() {
    for (format, blocks) in [(Format::A, 17), (Format::B, 2)] {
        let frame = frame_of(format, &content(format.longest())).unwrap();
        let mut named = Vec::new();
        for place in 1..frame.len() {
            let mut wrong = frame.clone();
            wrong[place] ^= 0x40;
            match read(format, &wrong, &mut [0; 255]) {
                Err(Refusal::WrongCheck { block }) => named.push(block),
                other => panic!("{other:?}"),
            }
        }
        named.dedup();
        assert_eq!(named, (1..=blocks).collect::<Vec<usize>>());
    }
}

#[test]
fn writing_refuses_5_before_4() {
    let go = |n, size| refused(size, |out| write(Format::B, &content(n), out));
    assert_eq!(go(9, 0), Refusal::ContentLength);
    assert_eq!(go(252, 0), Refusal::ContentLength);
    assert_eq!(go(0, 300), Refusal::ContentLength);
    assert_eq!(go(251, 255), Refusal::OutputTooSmall);
}

#[test]
fn changing_every_place_is_writing_again() {
    for format in Format::ALL {
        for n in [10, 25, 26, 125, 126, format.longest()] {
            for place in 0..n {
                let mut wished = content(n);
                wished[place] ^= 0x81;
                let mut frame = frame_of(format, &content(n)).unwrap();
                let size = frame.len();
                frame.push(0xEE);
                let sizes = Sizes {
                    frame: size,
                    content: n,
                };
                assert_eq!(change(format, &mut frame, place, wished[place]), Ok(sizes));
                assert_eq!(frame[..size], frame_of(format, &wished).unwrap()[..]);
                assert_eq!(frame[size], 0xEE);
            }
        }
    }
}

#[test]
fn changing_refuses_in_order() {
    let frame = frame_of(Format::A, &content(10)).unwrap();
    let go = |frame: &[u8], place| {
        let mut lent = frame.to_vec();
        let refusal = change(Format::A, &mut lent, place, 0x77).unwrap_err();
        assert_eq!(lent, frame);
        refusal
    };
    assert_eq!(go(&frame, 10), Refusal::NoSuchPlace);
    assert_eq!(go(&frame, usize::MAX), Refusal::NoSuchPlace);
    assert_eq!(go(&frame[..14], 10), Refusal::Ends);
    assert_eq!(go(&[], 0), Refusal::Ends);
    assert_eq!(go(&[3], 9), Refusal::LengthNotAllowed);
    let mut wrong = frame.clone();
    wrong[14] ^= 1;
    assert_eq!(go(&wrong, 10), Refusal::WrongCheck { block: 2 });
    let mut same = frame.clone();
    assert!(change(Format::A, &mut same, 9, content(10)[9]).is_ok());
    assert_eq!(same, frame);
}

// ---------------------------------------------------------------------- radio

/// The chips of a kind with this frame, behind three chips.
fn transmission(kind: Kind, frame: &[u8]) -> Vec<bool> {
    let mut chips = list("111");
    chips.extend(kind.sync_chips());
    chips.extend(encode_list(kind.code(), frame));
    chips
}

fn go(chips: &[bool], size: usize) -> Refusal {
    refused(size, |out| receive(&packed(chips), 0, usize::MAX, out))
}

#[test]
fn every_kind_is_sent_and_received() {
    for kind in Kind::ALL {
        for n in [10, 25, 26, 125, 126, kind.format().longest()] {
            let mut chips = vec![0; 1024];
            let written = send(kind, &content(n), &mut chips).unwrap();
            let mut out = vec![0xEE; n + 1];
            let got = match kind {
                Kind::ManchesterWithA => receive_manchester(&chips[..written], 0, &mut out),
                _ => receive(&chips[..written], 0, 1, &mut out),
            };
            let got = got.unwrap();
            assert_eq!((got.kind, got.place, got.sizes.content), (kind, 0, n));
            assert_eq!(out[..n], content(n)[..]);
            assert_eq!(out[n], 0xEE);
        }
    }
}

#[test]
fn sending_refuses_5_before_4_and_only_writes_its_bytes() {
    for kind in Kind::ALL {
        let go = |n, size| refused(size, |out| send(kind, &content(n), out));
        assert_eq!(go(9, 0), Refusal::ContentLength);
        assert_eq!(go(kind.format().longest() + 1, 0), Refusal::ContentLength);
        let mut out = [0xFF; 1024];
        let written = send(kind, &content(10), &mut out).unwrap();
        assert_eq!(go(10, written - 1), Refusal::OutputTooSmall);
        assert!(out[written..].iter().all(|&byte| byte == 0xFF));
    }
    // T with n = 10: 16 + 180 chips, so the last four chips are 0.
    let mut out = [0xFF; 25];
    assert_eq!(send(Kind::TWithA, &content(10), &mut out), Ok(25));
    assert_eq!(out[24] & 0x0F, 0);
}

#[test]
fn sync_tails() {
    let frame = frame_of(Format::A, &content(10)).unwrap();
    let tail_of = |tail: usize| {
        let mut chips = list("111 0101010000111101");
        chips.extend(crate::chips::list_of_number(tail, 16));
        chips.extend(encode_list(Code::Nrz, &frame));
        chips
    };
    // 54CDh is C with A; one chip beside it is unknown, 8 with the sync's place.
    let mut out = [0; 10];
    let got = receive(&packed(&tail_of(0x54CD)), 0, usize::MAX, &mut out).unwrap();
    assert_eq!((got.kind, got.place, got.tried), (Kind::CWithA, 3, 4));
    for tail in [0x54CC, 0x54DD, 0x55CD, 0x57CD, 0x543C, 0x5400, 0x57FF] {
        assert_eq!(go(&tail_of(tail), 0), Refusal::UnknownTail { sync: 3 });
    }
    // The place counts from the buffer's first chip, not from the start.
    let unknown = packed(&tail_of(0x5400));
    let refusal = refused(0, |out| receive(&unknown, 2, usize::MAX, out));
    assert_eq!(refusal, Refusal::UnknownTail { sync: 3 });
    // 010100: not mode C, so mode T, whose first word is then none.
    assert_eq!(go(&tail_of(0x5000), 0), Refusal::NotACodeWord { word: 0 });
    // 543Dh is C with B, whose L this is not.
    assert_eq!(go(&tail_of(0x543D), 0), Refusal::LengthNotAllowed);
}

#[test]
fn chips_end_within_the_tail_or_the_first_byte() {
    // 3 + 16 + 13 chips: no whole tail, though it could be one of mode T.
    let short = list("01010 0101010000111101 01011010100");
    assert_eq!(go(&short, 0), Refusal::Ends);
    // 32 chips: a whole tail of C with A and no chip of the frame.
    let no_frame = list("0101010000111101 0101010011001101");
    assert_eq!(go(&no_frame, 0), Refusal::Ends);
    // 32 chips: an unknown tail is judged though the frame is missing.
    let unknown = list("0101010000111101 0101010111001101");
    assert_eq!(go(&unknown, 0), Refusal::UnknownTail { sync: 0 });
    // 32 chips: mode T, whose first byte is always there; L = 00h.
    let mode_t = list("0101010000111101 0101100101100000");
    assert_eq!(go(&mode_t, 0), Refusal::LengthNotAllowed);
}

#[test]
fn receiving_judges_the_end_before_the_words() {
    let frame = frame_of(Format::A, &content(10)).unwrap();
    let whole = transmission(Kind::TWithA, &frame);
    let first_chip = 3 + 16;
    // Word 2 is the first one behind L. Word 21 has three ones and is none.
    let mut wrong = whole.clone();
    wrong.splice(first_chip + 12..first_chip + 18, list("010101"));
    assert_eq!(go(&wrong, 0), Refusal::NotACodeWord { word: 2 });
    // 199 chips are 25 bytes; 24 bytes end within the frame.
    assert_eq!(go(&wrong[..192], 0), Refusal::Ends);
    // A wrong word in the first byte comes before the end of the rest.
    let mut first_wrong = whole.clone();
    first_wrong[first_chip + 6] ^= true;
    assert_eq!(
        go(&first_wrong[..192], 0),
        Refusal::NotACodeWord { word: 1 }
    );
    // A wrong check comes behind a wrong word, and before 4.
    let mut wrong_check = frame.clone();
    wrong_check[14] ^= 1;
    let chips = transmission(Kind::TWithA, &wrong_check);
    assert_eq!(go(&chips, 0), Refusal::WrongCheck { block: 2 });
    assert_eq!(go(&whole, 9), Refusal::OutputTooSmall);
    // L = 9 comes before the missing rest.
    let bad_length = transmission(Kind::TWithA, &[9, 0]);
    assert_eq!(go(&bad_length, 0), Refusal::LengthNotAllowed);
}

#[test]
fn receiving_refuses_10_7_and_14() {
    let go =
        |chips: &[u8], start, allowance| refused(0, |out| receive(chips, start, allowance, out));
    assert_eq!(go(&[0; 1025], 0, 0), Refusal::OutOfRange);
    assert_eq!(go(&[0; 4], 33, 0), Refusal::OutOfRange);
    assert_eq!(go(&[0; 4], 32, 0), Refusal::NoSync { tried: 0 });
    assert_eq!(go(&[0; 4], 0, 17), Refusal::NoSync { tried: 17 });
    assert_eq!(go(&[0; 4], 0, 16), Refusal::AllowanceUsedUp { tried: 16 });
    assert_eq!(go(&[0; 4], 0, 0), Refusal::AllowanceUsedUp { tried: 0 });
}

#[test]
fn only_the_first_match_is_followed() {
    let frame = frame_of(Format::B, &content(10)).unwrap();
    let mut chips = list("0101010000111101 0101011111111111");
    chips.extend(transmission(Kind::CWithB, &frame));
    assert_eq!(go(&chips, 10), Refusal::UnknownTail { sync: 0 });
    // Searched again from the next place, the other one is found.
    let got = receive(&packed(&chips), 1, usize::MAX, &mut [0; 10]).unwrap();
    assert_eq!((got.place, got.tried), (35, 35));
}

#[test]
fn manchester_refuses_in_order() {
    let frame = frame_of(Format::A, &content(10)).unwrap();
    let chips = packed(&encode_list(Code::Manchester, &frame));
    let go = |chips: &[u8], start, size| refused(size, |out| receive_manchester(chips, start, out));
    assert_eq!(go(&[0; 1025], 0, 0), Refusal::OutOfRange);
    assert_eq!(go(&chips, 241, 0), Refusal::OutOfRange);
    assert_eq!(go(&chips, 240, 0), Refusal::Ends);
    assert_eq!(go(&[0], 0, 0), Refusal::Ends);
    assert_eq!(go(&[0, 0], 0, 0), Refusal::NotACodeWord { word: 0 });
    assert_eq!(go(&[0xAA, 0xAA], 0, 0), Refusal::LengthNotAllowed);
    assert_eq!(go(&chips[..29], 0, 0), Refusal::Ends);
    let mut wrong = chips.clone();
    wrong[2] ^= 0x80;
    assert_eq!(go(&wrong, 0, 0), Refusal::NotACodeWord { word: 8 });
    assert_eq!(go(&wrong[..29], 0, 0), Refusal::Ends);
    assert_eq!(go(&chips, 0, 9), Refusal::OutputTooSmall);
}

// --------------------------------------------------------- headers and filter

#[test]
fn header_reading_refuses_12_11_12() {
    assert_eq!(headers::read(&[]), Err(Refusal::HeaderEnds));
    assert_eq!(headers::read(&[0x86]), Err(Refusal::UnknownCi));
    assert_eq!(headers::read(&[0x8B, 0, 0]), Err(Refusal::UnknownCi));
    assert_eq!(headers::read(&[0x90; 17]), Err(Refusal::UnknownCi));
    for kind in HeaderKind::ALL {
        let mut body = vec![0; 20];
        body[0] = kind.ci();
        let length = kind.length();
        assert_eq!(headers::read(&body[..1]), Err(Refusal::HeaderEnds));
        assert_eq!(headers::read(&body[..length - 1]), Err(Refusal::HeaderEnds));
        assert_eq!(headers::read(&body[..length]).unwrap().kind, kind);
        assert_eq!(headers::read(&body).unwrap().kind, kind);
    }
}

#[test]
fn header_fields_stand_in_their_places() {
    let body: Vec<u8> = [0x8F].into_iter().chain(1..20).collect();
    let header = headers::read(&body).unwrap();
    assert_eq!(
        header,
        Header {
            kind: HeaderKind::AddressAndSession,
            cc: 1,
            acc: 2,
            m2: 0x0403,
            a2: [5, 6, 7, 8, 9, 10],
            sn: 0x0E0D0C0B,
            payload_crc: [15, 16],
        }
    );
    let body: Vec<u8> = [0x8D].into_iter().chain(1..20).collect();
    let header = headers::read(&body).unwrap();
    assert_eq!((header.m2, header.a2), (0, [0; 6]));
    assert_eq!((header.sn, header.payload_crc), (0x06050403, [7, 8]));
}

#[test]
fn header_writing_refuses_4_only() {
    for kind in HeaderKind::ALL {
        let header = Header {
            kind,
            cc: 1,
            acc: 2,
            m2: 0x0403,
            a2: [5; 6],
            sn: 6,
            payload_crc: [7, 8],
        };
        let refusal = refused(kind.length() - 1, |out| headers::write(&header, out));
        assert_eq!(refusal, Refusal::OutputTooSmall);
        let mut out = vec![0xEE; 18];
        assert_eq!(headers::write(&header, &mut out), Ok(kind.length()));
        assert!(out[kind.length()..].iter().all(|&byte| byte == 0xEE));
    }
}

#[test]
fn filter_refuses_10_before_5() {
    let mut entries = [[0; 8]; 16];
    entries[15] = [1, 2, 3, 4, 5, 6, 7, 8];
    let content = [0x44, 1, 2, 3, 4, 5, 6, 7, 8, 9];
    assert_eq!(wanted(&entries, 16, &content), Ok(true));
    assert_eq!(wanted(&entries, 16, &content[..9]), Ok(true));
    assert_eq!(wanted(&entries, 15, &content), Ok(false));
    assert_eq!(wanted(&entries, 0, &[0; 9]), Ok(false));
    assert_eq!(wanted(&entries, 1, &[0; 9]), Ok(true));
    assert_eq!(
        wanted(&entries, 16, &content[..8]),
        Err(Refusal::ContentLength)
    );
    assert_eq!(
        wanted(&entries, 17, &content[..8]),
        Err(Refusal::OutOfRange)
    );
    assert_eq!(
        wanted(&entries, usize::MAX, &content),
        Err(Refusal::OutOfRange)
    );
    // C is not compared, and all eight bytes are.
    let mut other_c = content;
    other_c[0] = 0x46;
    assert_eq!(wanted(&entries, 16, &other_c), Ok(true));
    for place in 1..=8 {
        let mut other = content;
        other[place] ^= 0x80;
        assert_eq!(wanted(&entries, 16, &other), Ok(false));
    }
}
