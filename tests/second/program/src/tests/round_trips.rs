//! What was written is read back, on seeded random input.

use crate::answer::Refusal;
use crate::check::{check, update};
use crate::chips::{decode, encode, encode_list, packed, Code};
use crate::frames::{content_of, frame_of, read, write, Format};
use crate::headers::{self, Header, HeaderKind};
use crate::radio::{receive, receive_manchester, send};
use crate::random::Random;
use crate::reader::Reader;
use crate::sync::{search, Kind, SYNC_CHIPS};

fn any_content(random: &mut Random, format: Format) -> Vec<u8> {
    let length = 10 + random.below(format.longest() - 9);
    random.bytes(length)
}

#[test]
fn line_codes_at_any_place() {
    let mut random = Random::new(1);
    for _ in 0..600 {
        let code = random.pick(&Code::ALL);
        let length = random.below(60);
        let bytes = random.bytes(length);
        let place = random.below(50);
        let mut chips: Vec<bool> = (0..place).map(|_| random.once_in(2)).collect();
        chips.extend(encode_list(code, &bytes));
        let mut out = vec![0; length];
        assert_eq!(
            decode(code, &packed(&chips), place, length, &mut out),
            Ok(length)
        );
        assert_eq!(out, bytes);
    }
}

#[test]
fn encoding_fills_whole_bytes() {
    let mut random = Random::new(2);
    for _ in 0..300 {
        let code = random.pick(&Code::ALL);
        let length = random.below(100);
        let bytes = random.bytes(length);
        let mut chips = vec![0xFF; 200];
        let written = encode(code, &bytes, &mut chips).unwrap();
        assert_eq!(written, (length * code.chips_in_a_byte()).div_ceil(8));
        assert!(chips[written..].iter().all(|&byte| byte == 0xFF));
        let mut out = vec![0; length];
        assert_eq!(
            decode(code, &chips[..written], 0, length, &mut out),
            Ok(length)
        );
        assert_eq!(out, bytes);
    }
}

/// Word by word a chip reader sees what decoding sees, its refusals included.
#[test]
fn chip_reader_agrees_with_decoding() {
    let mut random = Random::new(3);
    for _ in 0..400 {
        let code = random.pick(&Code::ALL);
        let length = 1 + random.below(6);
        let bytes = random.bytes(length);
        let mut chips = encode_list(code, &bytes);
        if random.once_in(2) {
            let place = random.below(chips.len());
            chips[place] = !chips[place];
        }
        let chips = packed(&chips);
        let mut reader = Reader::new(&chips, 0);
        let mut words = 0;
        let mut stopped = Ok(length);
        while words < length * code.words_in_a_byte() {
            if reader.next(code).is_err() {
                stopped = Err(Refusal::NotACodeWord { word: words });
                break;
            }
            words += 1;
        }
        assert_eq!(reader.place(), words * code.chips_in_a_word());
        assert_eq!(
            decode(code, &chips, 0, length, &mut vec![0; length]),
            stopped
        );
    }
}

#[test]
fn frames_of_every_length() {
    let mut random = Random::new(4);
    for format in Format::ALL {
        for n in 10..=format.longest() {
            let content = random.bytes(n);
            let mut frame = [0; 290];
            let size = write(format, &content, &mut frame).unwrap();
            let mut out = vec![0; n];
            let sizes = read(format, &frame, &mut out).unwrap();
            assert_eq!((sizes.frame, sizes.content), (size, n));
            assert_eq!(out, content);
        }
    }
}

#[test]
fn what_is_read_is_what_would_be_written() {
    // A reader that takes too much would take something no writer makes.
    let mut random = Random::new(5);
    for _ in 0..2000 {
        let format = random.pick(&Format::ALL);
        let content = any_content(&mut random, format);
        let mut frame = frame_of(format, &content).unwrap();
        let place = random.below(frame.len());
        frame[place] ^= random.byte();
        if let Ok((content, sizes)) = content_of(format, &frame) {
            assert_eq!(frame_of(format, &content).unwrap(), frame[..sizes.frame]);
        }
    }
}

/// The promise of the check update, taken at its word.
#[test]
fn update_is_the_check_of_the_changed_span() {
    let mut random = Random::new(6);
    for _ in 0..1500 {
        let distance = random.below(126);
        let before = random.below(126 - distance);
        let old = random.bytes(before + 1 + distance);
        let mut new = old.clone();
        new[before] = random.byte();
        let updated = update(check(&old), old[before], new[before], distance);
        assert_eq!(updated, Ok(check(&new)));
    }
}

#[test]
fn transmissions_at_any_place() {
    let mut random = Random::new(7);
    for _ in 0..400 {
        let kind = random.pick(&Kind::ALL);
        let content = any_content(&mut random, kind.format());
        let mut sent = vec![0; 1024];
        let written = send(kind, &content, &mut sent).unwrap();
        // Still air before: no sync can lie in zeros, nor across their end.
        let lead = random.below(100);
        let mut chips = vec![false; lead];
        chips.extend(crate::chips::list_of(&sent[..written]));
        let chips = packed(&chips);
        let mut out = vec![0; content.len()];
        let got = match kind {
            Kind::ManchesterWithA => receive_manchester(&chips, lead, &mut out).unwrap(),
            _ => receive(&chips, 0, usize::MAX, &mut out).unwrap(),
        };
        let tried = if kind == Kind::ManchesterWithA {
            0
        } else {
            lead + 1
        };
        assert_eq!((got.kind, got.place, got.tried), (kind, lead, tried));
        assert_eq!(out, content);
    }
}

/// The search against its definition, said without a loop that stops.
#[test]
fn search_agrees_with_its_definition() {
    let mut random = Random::new(8);
    for _ in 0..300 {
        let length = random.below(30);
        let mut chips = random.bytes(length);
        if length >= 2 && random.once_in(2) {
            let place = random.below(length - 1);
            chips[place..place + 2].copy_from_slice(&[0x54, 0x3D]);
        }
        let count = 8 * length;
        let start = random.below(count + 1);
        let allowance = random.below(count + 3);
        let available = (count as i64 - 16 - start as i64 + 1).max(0) as usize;
        let text: String = crate::chips::list_of(&chips)[start..]
            .iter()
            .map(|&chip| if chip { '1' } else { '0' })
            .collect();
        let first = text
            .find("0101010000111101")
            .filter(|&before| before < allowance);
        match (first, search(&chips, start, allowance)) {
            (Some(before), Ok(found)) => {
                assert_eq!((found.place, found.tried), (start + before, before + 1));
                assert!(found.place + SYNC_CHIPS <= count);
            }
            (None, Err(Refusal::NoSync { tried })) => {
                assert!(allowance >= available && tried == available);
            }
            (None, Err(Refusal::AllowanceUsedUp { tried })) => {
                assert!(allowance < available && tried == allowance);
            }
            other => panic!("{other:?}"),
        }
    }
}

#[test]
fn headers_of_every_kind() {
    let mut random = Random::new(9);
    for _ in 0..400 {
        let kind = random.pick(&HeaderKind::ALL);
        let length = kind.length() + random.below(5);
        let mut body = random.bytes(length);
        body[0] = kind.ci();
        let header: Header = headers::read(&body).unwrap();
        let mut out = vec![0; kind.length()];
        assert_eq!(headers::write(&header, &mut out), Ok(kind.length()));
        assert_eq!(out, body[..kind.length()]);
    }
}
