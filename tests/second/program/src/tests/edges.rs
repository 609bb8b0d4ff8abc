//! Document 01, "On both sides of the edge" and "Errors my students make".

use super::{content, list};
use crate::answer::Refusal;
use crate::channels::{band_line, band_listing, centre, quarters, row_of, TABLE_21};
use crate::check::{check, update};
use crate::chips::{encode_list, packed, Code, THREE_OF_SIX};
use crate::frames::{frame_of, read, write, Format, Sizes};
use crate::headers::{access, maker, Access, HeaderKind};

#[test]
fn checks_of_one_byte() {
    assert_eq!(check(&[0x00]), 0xFFFF);
    assert_eq!(check(&[0x01]), 0xC29A);
    assert_eq!(check(&[0x02]), 0x8535);
}

#[test]
fn check_of_the_nine_digits() {
    assert_eq!(check(b"123456789"), 0xC2B7);
}

#[test]
fn check_of_nothing_shows_the_start_at_zero() {
    // Error 3: a register that starts at FFFFh would give 0000h here.
    assert_eq!(check(&[]), 0xFFFF);
    assert_eq!(check(&[0; 200]), 0xFFFF);
}

#[test]
fn check_by_a_shift_register_is_the_same() {
    // The same rule said the other way: a register of 16 bits and 3D65h.
    fn register(bytes: &[u8]) -> u16 {
        let mut register = 0u16;
        for &byte in bytes {
            for bit in (0..8).rev() {
                let out = (register >> 15) & 1 != ((byte >> bit) & 1) as u16;
                register <<= 1;
                if out {
                    register ^= 0x3D65;
                }
            }
        }
        !register
    }
    for length in 0..300 {
        assert_eq!(check(&content(length)), register(&content(length)));
    }
}

#[test]
fn updates_of_a_check() {
    assert_eq!(update(0xFFFF, 0x00, 0x01, 0), Ok(0xC29A));
    assert_eq!(update(0xFFFF, 0x00, 0x02, 0), Ok(0x8535));
    assert_eq!(update(0x1234, 0x55, 0x55, 9), Ok(0x1234));
    assert!(update(0, 0, 1, 125).is_ok());
    assert_eq!(update(0, 0, 1, 126), Err(Refusal::OutOfRange));
    assert_eq!(update(0, 0, 0, usize::MAX), Err(Refusal::OutOfRange));
}

#[test]
fn update_counts_from_the_end_of_the_span() {
    // Error 5: the distance from the start is a different one here.
    let old = [1, 2, 3, 4];
    let new = [1, 9, 3, 4];
    assert_eq!(update(check(&old), 2, 9, 2), Ok(check(&new)));
    assert_ne!(update(check(&old), 2, 9, 1), Ok(check(&new)));
}

#[test]
fn line_codes_of_44() {
    assert_eq!(
        encode_list(Code::ThreeOfSix, &[0x44]),
        list("011100 011100")
    );
    assert_eq!(
        packed(&encode_list(Code::Manchester, &[0x44])),
        [0x9A, 0x9A]
    );
    assert_eq!(packed(&encode_list(Code::Nrz, &[0x44])), [0x44]);
}

#[test]
fn code_words_are_those_of_document_01() {
    let words = [
        22, 13, 14, 11, 28, 25, 26, 19, 44, 37, 38, 35, 52, 49, 50, 41,
    ];
    assert_eq!(THREE_OF_SIX, words);
}

#[test]
fn words_that_are_no_code_words() {
    // Error 2: of the twenty words with three ones, four are not code words.
    let weight_three = |word: &usize| word.count_ones() == 3;
    let unknown = |word: &usize| Code::ThreeOfSix.value_of(*word).is_none();
    let left_over: Vec<usize> = (0..64).filter(weight_three).filter(unknown).collect();
    assert_eq!(left_over, [7, 21, 42, 56]);
    let known = (0..64).filter(|word| !unknown(word)).count();
    assert_eq!(known, 16);
    assert_eq!(
        [0, 1, 2, 3].map(|word| Code::Manchester.value_of(word)),
        [None, Some(1), Some(0), None]
    );
    assert!((0..256).all(|word| Code::Nrz.value_of(word) == Some(word)));
}

/// The frame size and L for a content of n bytes.
fn written(format: Format, n: usize) -> Result<(usize, u8), Refusal> {
    frame_of(format, &content(n)).map(|frame| (frame.len(), frame[0]))
}

#[test]
fn sizes_of_format_a() {
    assert_eq!(written(Format::A, 10), Ok((15, 10)));
    assert_eq!(written(Format::A, 25), Ok((30, 25)));
    assert_eq!(written(Format::A, 26), Ok((33, 26)));
    assert_eq!(written(Format::A, 255), Ok((290, 255)));
    assert_eq!(written(Format::A, 9), Err(Refusal::ContentLength));
    assert_eq!(written(Format::A, 256), Err(Refusal::ContentLength));
}

#[test]
fn sizes_of_format_b() {
    assert_eq!(written(Format::B, 10), Ok((13, 12)));
    assert_eq!(written(Format::B, 125), Ok((128, 127)));
    assert_eq!(written(Format::B, 126), Ok((131, 130)));
    assert_eq!(written(Format::B, 251), Ok((256, 255)));
    assert_eq!(written(Format::B, 9), Err(Refusal::ContentLength));
    assert_eq!(written(Format::B, 252), Err(Refusal::ContentLength));
}

#[test]
fn lengths_that_are_not_allowed() {
    let allowed = |format: Format| -> Vec<u8> {
        (0..=255)
            .filter(|&length| format.sizes(length).is_ok())
            .collect()
    };
    assert_eq!(allowed(Format::A), (10..=255).collect::<Vec<u8>>());
    let of_b: Vec<u8> = (12..=127).chain(130..=255).collect();
    assert_eq!(allowed(Format::B), of_b);
    for length in [11, 128, 129] {
        assert_eq!(Format::B.sizes(length), Err(Refusal::LengthNotAllowed));
        let refused = read(Format::B, &[length], &mut []);
        assert_eq!(refused, Err(Refusal::LengthNotAllowed));
    }
    assert_eq!(Format::A.sizes(9), Err(Refusal::LengthNotAllowed));
}

#[test]
fn sizes_and_length_bytes_belong_together() {
    for format in Format::ALL {
        for n in 10..=format.longest() {
            let length = format.length_byte(n).unwrap();
            let frame = frame_of(format, &content(n)).unwrap();
            assert_eq!(
                format.sizes(length),
                Ok(Sizes {
                    frame: frame.len(),
                    content: n
                })
            );
            // Error 1: B counts its checks in L, A does not.
            match format {
                Format::A => assert_eq!(length as usize, n),
                Format::B => assert_eq!(length as usize, frame.len() - 1),
            }
        }
    }
}

#[test]
fn blocks_of_format_b() {
    // Error 4: no check after ten bytes, but one after 126.
    let frame = frame_of(Format::B, &content(126)).unwrap();
    assert_eq!(frame[1..126], content(126)[..125]);
    assert_eq!(frame[126..128], check(&frame[..126]).to_be_bytes());
    assert_eq!(frame[128], content(126)[125]);
    assert_eq!(frame[129..], check(&frame[128..129]).to_be_bytes());
}

#[test]
fn blocks_of_format_a() {
    let frame = frame_of(Format::A, &content(26)).unwrap();
    assert_eq!(frame[10..12], check(&frame[..10]).to_be_bytes());
    assert_eq!(frame[28..30], check(&frame[12..28]).to_be_bytes());
    assert_eq!(frame[31..33], check(&frame[30..31]).to_be_bytes());
}

#[test]
fn frame_output_just_enough_and_one_short() {
    for format in Format::ALL {
        for n in [10, 25, 26, 125, 126, format.longest()] {
            let frame = frame_of(format, &content(n)).unwrap();
            let mut exact = vec![0; frame.len()];
            assert_eq!(write(format, &content(n), &mut exact), Ok(frame.len()));
            assert_eq!(exact, frame);
            let mut short = vec![0xEE; frame.len() - 1];
            let refused = write(format, &content(n), &mut short);
            assert_eq!(refused, Err(Refusal::OutputTooSmall));
            assert!(short.iter().all(|&byte| byte == 0xEE));
        }
    }
}

#[test]
fn access_of_a_meter() {
    assert_eq!(access(0x84), Access::Unlimited);
    assert_eq!(access(0x80), Access::Limited);
    assert_eq!(access(0x04), Access::NoneForNow);
    assert_eq!(access(0x00), Access::None);
    // The other six bits have no say.
    assert_eq!(access(0x7B), Access::None);
    assert_eq!(access(0xFF), Access::Unlimited);
}

#[test]
fn letters_of_a_manufacturer() {
    let letters = |m| maker(m).letters;
    assert_eq!(letters(0x0443), Some(*b"ABC"));
    // 12.5.5: the top bit is no part of a letter.
    assert_eq!(letters(0x8443), Some(*b"ABC"));
    assert_eq!(letters(26 * 1024 + 26 * 32 + 26), Some(*b"ZZZ"));
    assert_eq!(letters(1024 + 32 + 1), Some(*b"AAA"));
    assert_eq!(letters(27 * 1024 + 32 + 1), None);
    assert_eq!(letters(1024 + 27 * 32 + 1), None);
    assert_eq!(letters(1024 + 32 + 27), None);
    assert_eq!(letters(32 + 1), None);
    assert_eq!(letters(1024 + 1), None);
    assert_eq!(letters(1024 + 32), None);
    assert_eq!(letters(0), None);
    assert_eq!(letters(0x8000), None);
    let named = (0..=0xFFFF).filter(|&m| letters(m).is_some()).count();
    assert_eq!(named, 2 * 26 * 26 * 26);
}

#[test]
fn fifteen_frame_bytes_in_mode_t() {
    let frame = frame_of(Format::A, &content(10)).unwrap();
    let chips = encode_list(Code::ThreeOfSix, &frame);
    assert_eq!((frame.len(), chips.len()), (15, 180));
    let bytes = packed(&chips);
    assert_eq!(bytes.len(), 23);
    assert_eq!(bytes[22] & 0x0F, 0);
}

#[test]
fn header_lengths() {
    assert_eq!(
        HeaderKind::ALL.map(HeaderKind::ci),
        [0x8C, 0x8D, 0x8E, 0x8F]
    );
    assert_eq!(HeaderKind::ALL.map(HeaderKind::length), [3, 9, 11, 17]);
}

#[test]
fn channels_of_mode_n() {
    assert_eq!(TABLE_21.iter().map(|row| row.channels).sum::<usize>(), 103);
    let mut centres = 0;
    for index in 0..20 {
        for channel in 0..30 {
            match centre(index, channel) {
                Ok(hertz) => {
                    assert_eq!(hertz % 250, 0);
                    centres += 1;
                }
                Err(refusal) => assert_eq!(refusal, Refusal::NoSuchChannel),
            }
        }
    }
    assert_eq!(centres, 103);
    assert_eq!(centre(1, 5), Ok(169_468_750));
    assert_eq!(centre(1, 6), Err(Refusal::NoSuchChannel));
    assert_eq!(centre(4, 0), Ok(169_437_500));
    assert_eq!(centre(4, 1), Err(Refusal::NoSuchChannel));
    assert_eq!(centre(9, 7), Ok(169_581_250));
    assert_eq!(centre(9, 8), Err(Refusal::NoSuchChannel));
    assert_eq!(centre(12, 17), Ok(169_806_250));
    assert_eq!(centre(12, 18), Err(Refusal::NoSuchChannel));
    assert_eq!(centre(13, 3), Ok(169_775_000));
    assert_eq!(centre(13, 4), Err(Refusal::NoSuchChannel));
    assert!(row_of(0).is_none() && row_of(1).is_some());
    assert!(row_of(13).is_some() && row_of(14).is_none());
    assert_eq!(centre(usize::MAX, usize::MAX), Err(Refusal::NoSuchChannel));
}

/// The table was taken from Table 21, in hertz. Here are document 01's rows:
/// first centre, spacing, tolerance in kilohertz, then the channels.
#[test]
fn rows_are_those_of_document_01() {
    let rows = [
        (169406.25, 12.5, 2.0, 6),
        (169406.25, 12.5, 1.5, 6),
        (169406.25, 12.5, 1.5, 6),
        (169437.5, 50.0, 2.5, 1),
        (169481.25, 12.5, 2.0, 1),
        (169481.25, 12.5, 1.5, 1),
        (169493.75, 12.5, 1.5, 8),
        (169493.75, 12.5, 1.5, 8),
        (169493.75, 12.5, 1.5, 8),
        (169593.75, 12.5, 2.0, 18),
        (169593.75, 12.5, 1.5, 18),
        (169593.75, 12.5, 1.5, 18),
        (169625.0, 50.0, 2.5, 4),
    ];
    for (row, (first, spacing, tolerance, channels)) in TABLE_21.into_iter().zip(rows) {
        assert_eq!(Some(row.first / 250), quarters(first));
        assert_eq!(Some(row.spacing / 250), quarters(spacing));
        assert_eq!(Some(row.tolerance / 250), quarters(tolerance));
        assert_eq!(row.channels, channels);
    }
    let indices: Vec<usize> = TABLE_21.iter().map(|row| row.index).collect();
    assert_eq!(indices, (1..=13).collect::<Vec<usize>>());
    let bands: String = TABLE_21.iter().map(|row| row.band).collect();
    assert_eq!(bands, "AAAABBCCCDDDD");
}

#[test]
fn centres_lie_within_their_bands() {
    // Tables 17 to 20: the sub-bands, in hertz. Half the spacing fits, too.
    let bands = [
        ('A', 169_400_000, 169_475_000),
        ('B', 169_475_000, 169_487_500),
        ('C', 169_487_500, 169_587_500),
        ('D', 169_587_500, 169_812_500),
    ];
    for row in TABLE_21 {
        let (_, low, high) = bands.into_iter().find(|band| band.0 == row.band).unwrap();
        for channel in 0..row.channels {
            let hertz = centre(row.index, channel).unwrap();
            assert!(hertz - row.spacing / 2 >= low && hertz + row.spacing / 2 <= high);
        }
    }
}

#[test]
fn quarter_kilohertz_are_never_rounded() {
    assert_eq!(quarters(169406.25), Some(677_625));
    assert_eq!(quarters(0.0), Some(0));
    assert_eq!(quarters(169406.26), None);
    assert_eq!(quarters(-0.25), None);
    assert_eq!(quarters(-0.0), None);
    assert_eq!(quarters(f64::NAN), None);
    assert_eq!(quarters(f64::INFINITY), None);
}

#[test]
fn band_listings() {
    let of_b = "index channel hz\n5 0 169481250\n6 0 169481250\n";
    assert_eq!(band_listing(b"B"), of_b);
    assert_eq!(band_listing(b"B\n"), of_b);
    let lines = |input: &[u8]| band_listing(input).lines().count() - 1;
    assert_eq!(
        [b"A", b"B", b"C", b"D"].map(|band| lines(band)),
        [19, 2, 24, 58]
    );
    let others: [&[u8]; 9] = [
        b"", b"\n", b"E", b"@", b"b", b"B\n\n", b"B\r\n", b"BB", b" B",
    ];
    for input in others {
        assert_eq!(band_listing(input), "no such band\n");
        assert_eq!(band_line(input, 0), Err(Refusal::NoSuchChannel));
    }
    assert_eq!(band_line(b"D\n", 57), Ok([13, 3, 169_775_000]));
    assert_eq!(band_line(b"D\n", 58), Err(Refusal::NoSuchChannel));
}

/// A third source: the lists of tests/bands, which a script works out from the
/// table in megahertz, and which the band program is run against.
#[test]
fn band_listings_are_those_of_the_script() {
    let lists = [
        ("A", include_str!("../../../../bands/A.txt")),
        ("B", include_str!("../../../../bands/B.txt")),
        ("C", include_str!("../../../../bands/C.txt")),
        ("D", include_str!("../../../../bands/D.txt")),
        ("E", include_str!("../../../../bands/none.txt")),
    ];
    for (input, list) in lists {
        assert_eq!(band_listing(input.as_bytes()), list);
    }
}
