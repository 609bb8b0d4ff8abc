//! The fields of each call's row, and that a refusal shows its one value in its
//! own field and zeros in all others.

use super::{buffer, content};
use crate::answer::{Answer, Refusal};
use crate::chips::{encode_list, packed, Code};
use crate::frames::{frame_of, Format};
use crate::headers::{Header, HeaderKind};
use crate::implementation::{CorrectionCalls, Implementation, MendingCalls, Second};
use crate::sync::Kind;

/// A number and its whole row.
fn is(answer: Answer, number: u64, row: &[u64]) {
    let mut expected = Answer::accepted(row);
    expected.number = number;
    assert_eq!(answer, expected);
}

#[test]
fn refusals_have_their_numbers_and_values() {
    let all = [
        (Refusal::Ends, 1, 0),
        (Refusal::LengthNotAllowed, 2, 0),
        (Refusal::WrongCheck { block: 17 }, 3, 17),
        (Refusal::OutputTooSmall, 4, 0),
        (Refusal::ContentLength, 5, 0),
        (Refusal::NotACodeWord { word: 9 }, 6, 9),
        (Refusal::NoSync { tried: 8177 }, 7, 8177),
        (Refusal::UnknownTail { sync: 33 }, 8, 33),
        (Refusal::NoSuchPlace, 9, 0),
        (Refusal::OutOfRange, 10, 0),
        (Refusal::UnknownCi, 11, 0),
        (Refusal::HeaderEnds, 12, 0),
        (Refusal::NoSuchChannel, 13, 0),
        (Refusal::AllowanceUsedUp { tried: 5 }, 14, 5),
        (Refusal::MalformedStore, 17, 0),
        (Refusal::UnknownVersion, 18, 0),
        (Refusal::MeterNotHeld, 19, 0),
        (Refusal::Unsure, 20, 0),
        (Refusal::NumbersUsedUp, 21, 0),
        (Refusal::StoreFull, 22, 0),
        (Refusal::TooLongForCorrection, 23, 0),
        (Refusal::AnotherCode, 24, 0),
        (Refusal::NotOfTheCode, 25, 0),
        (Refusal::TooManyDiffer, 26, 0),
    ];
    for (refusal, number, value) in all {
        is(Answer::refused(refusal, 1, 0), number, &[value]);
        is(Answer::refused(refusal, 3, 1), number, &[0, value, 0]);
    }
}

#[test]
fn line_codes_and_search() {
    let chips = [0x9A, 0x9A];
    is(
        Second.decode(Code::Manchester, &chips, 0, 1, &mut [0]),
        0,
        &[0],
    );
    is(
        Second.decode(Code::Manchester, &chips, 1, 1, &mut [0]),
        1,
        &[0],
    );
    is(Second.decode(Code::Nrz, &chips, 8, 1, &mut []), 4, &[0]);
    is(
        Second.decode(Code::ThreeOfSix, &buffer("011100010101"), 0, 1, &mut [0]),
        6,
        &[1],
    );
    is(
        Second.encode(Code::ThreeOfSix, &[0x44], &mut [0; 3]),
        0,
        &[2],
    );
    is(Second.word(Code::ThreeOfSix, &buffer("011100"), 0), 0, &[4]);
    let sync = buffer("1110101010000111101");
    is(Second.search(&sync, 1, 9), 0, &[3, 3]);
    is(Second.search(&sync, 4, 9), 7, &[0, 5]);
    is(Second.search(&sync, 4, 4), 14, &[0, 4]);
}

#[test]
fn checks_and_frames() {
    is(Second.check(b"123456789"), 0, &[0xC2B7]);
    is(Second.check_update(0xFFFF, 0, 1, 0), 0, &[0xC29A]);
    let mut frame = frame_of(Format::A, &content(26)).unwrap();
    is(
        Second.frame_read(Format::A, &frame, &mut [0; 26]),
        0,
        &[33, 26, 0],
    );
    is(
        Second.frame_write(Format::A, &content(26), &mut [0; 33]),
        0,
        &[33],
    );
    is(
        Second.frame_change(Format::A, &mut frame, 25, 1),
        0,
        &[33, 26, 0],
    );
    is(
        Second.frame_change(Format::A, &mut frame, 26, 1),
        9,
        &[0; 3],
    );
    is(Second.frame_size(Format::A, 26), 0, &[33]);
    is(Second.frame_size(Format::B, 128), 2, &[0]);
    frame[32] ^= 1;
    is(
        Second.frame_read(Format::A, &frame, &mut [0; 26]),
        3,
        &[0, 0, 3],
    );
    is(
        Second.frame_change(Format::A, &mut frame, 0, 0),
        3,
        &[0, 0, 3],
    );
}

#[test]
fn correction_bytes() {
    let mut frame = frame_of(Format::B, &content(218)).unwrap();
    let write = |frame: &[u8], room| Second.correction_write(Format::B, frame, &mut vec![0; room]);
    is(write(&frame, 257), 0, &[257]);
    is(write(&frame, 256), 4, &[0]);
    is(write(&frame[..222], 257), 1, &[0]);
    is(write(&[128], 257), 2, &[0]);
    frame[222] ^= 1;
    is(write(&frame, 257), 3, &[2]);
    let longer = frame_of(Format::B, &content(219)).unwrap();
    is(write(&longer, 257), 23, &[0]);
    is(Second.correction_check_bytes(&[1], &mut [0; 32]), 0, &[32]);
    is(Second.correction_check_bytes(&[1], &mut [0; 31]), 4, &[0]);
    is(Second.correction_check_bytes(&[1; 224], &mut []), 23, &[0]);
    is(Second.correction_header(&[0x21, 0x04]), 0, &[]);
    is(Second.correction_header(&[0x21]), 1, &[]);
    is(Second.correction_header(&[0x42, 0x08]), 24, &[]);
}

#[test]
fn mending() {
    let frame = frame_of(Format::A, &content(10)).unwrap();
    let mut written = [0; 49];
    is(
        Second.correction_write(Format::A, &frame, &mut written),
        0,
        &[49],
    );
    let word = [&written[..15], &written[17..]].concat();
    let take =
        |proposed: &[u8], received: &[u8]| Second.take_proposal(Format::A, proposed, received);
    is(take(&word, &written), 0, &[0]);
    let mut wrong = written;
    wrong[1..17].fill(0xEE);
    is(take(&word, &wrong), 0, &[14]);
    wrong[17..20].fill(0xEE);
    is(take(&word, &wrong), 26, &[0]);
    is(take(&word[..46], &wrong), 1, &[0]);
    is(take(&[9], &wrong), 2, &[0]);
    is(take(&[197], &wrong), 23, &[0]);
    is(take(&[10; 47], &wrong), 25, &[0]);

    let propose = |received: &[u8], out: &mut [u8]| Second.propose_one(Format::A, received, out);
    wrong = written;
    wrong[48] ^= 0x10;
    let mut out = [0xEE; 48];
    is(propose(&wrong, &mut out), 0, &[47]);
    assert_eq!(out[..47], word);
    assert_eq!(out[47], 0xEE);
    is(propose(&wrong, &mut out[..46]), 4, &[0]);
    is(propose(&wrong[..48], &mut out), 1, &[0]);
    is(propose(&[9], &mut out), 2, &[0]);
    is(propose(&[197], &mut out), 23, &[0]);

    let propose = |received: &[u8], out: &mut [u8]| Second.propose(Format::A, received, out);
    wrong = written;
    wrong[1..15].fill(0xEE);
    wrong[47..].fill(0xEE);
    out.fill(0xEE);
    is(propose(&wrong, &mut out), 0, &[47]);
    assert_eq!(out[..47], word);
    assert_eq!(out[47], 0xEE);
    is(propose(&wrong, &mut out[..46]), 4, &[0]);
    is(propose(&wrong[..48], &mut out), 1, &[0]);
    is(propose(&[9], &mut out), 2, &[0]);
    is(propose(&[197], &mut out), 23, &[0]);
}

#[test]
fn receptions() {
    for (number, kind) in [(0, Kind::TWithA), (1, Kind::CWithA), (2, Kind::CWithB)] {
        let frame = frame_of(kind.format(), &content(26)).unwrap();
        let mut chips = vec![false; 4];
        chips.extend(kind.sync_chips());
        chips.extend(encode_list(kind.code(), &frame));
        let size = frame.len() as u64;
        let answer = Second.receive(&packed(&chips), 1, 99, &mut [0; 26]);
        is(answer, 0, &[number, 4, 4, size, 26, 0, 0]);
    }
    let frame = frame_of(Format::A, &content(26)).unwrap();
    let mut chips = vec![false; 5];
    chips.extend(encode_list(Code::Manchester, &frame));
    let answer = Second.receive_manchester(&packed(&chips), 5, &mut [0; 26]);
    is(answer, 0, &[3, 5, 0, 33, 26, 0, 0]);
    is(
        Second.send(Kind::TWithA, &content(10), &mut [0; 30]),
        0,
        &[25],
    );
    is(
        Second.send(Kind::CWithA, &content(10), &mut [0; 30]),
        0,
        &[19],
    );
    is(
        Second.send(Kind::CWithB, &content(10), &mut [0; 30]),
        0,
        &[17],
    );
    is(
        Second.send(Kind::ManchesterWithA, &content(10), &mut [0; 30]),
        0,
        &[30],
    );
}

/// Seven fields; each refusal's value stands in its own.
#[test]
fn refused_receptions() {
    let receive = |chips: &[u8], allowance| Second.receive(chips, 1, allowance, &mut [0; 26]);
    is(receive(&[0; 4], 99), 7, &[0, 0, 16, 0, 0, 0, 0]);
    is(receive(&[0; 4], 9), 14, &[0, 0, 9, 0, 0, 0, 0]);
    is(receive(&[0; 1025], 9), 10, &[0; 7]);
    let tail = buffer("00 0101010000111101 0101011111111111");
    is(receive(&tail, 99), 8, &[0, 2, 0, 0, 0, 0, 0]);
    is(receive(&tail[..4], 99), 1, &[0; 7]);
    let good = frame_of(Format::A, &content(26)).unwrap();
    let sent = |frame: &[u8]| -> Vec<bool> {
        let mut chips = vec![false; 4];
        chips.extend(Kind::TWithA.sync_chips());
        chips.extend(encode_list(Code::ThreeOfSix, frame));
        chips
    };
    let mut wrong = good.clone();
    wrong[12] ^= 1;
    is(
        receive(&packed(&sent(&wrong)), 99),
        3,
        &[0, 0, 0, 0, 0, 2, 0],
    );
    let mut chips = sent(&good);
    let place = 4 + 16 + 6 * 9;
    chips[place] = !chips[place];
    is(receive(&packed(&chips), 99), 6, &[0, 0, 0, 0, 0, 0, 9]);
    is(
        Second.receive(&packed(&sent(&good)), 1, 99, &mut [0; 25]),
        4,
        &[0; 7],
    );
    let mut chips = encode_list(Code::Manchester, &good);
    chips[16] = chips[17];
    is(
        Second.receive_manchester(&packed(&chips), 0, &mut [0; 26]),
        6,
        &[0, 0, 0, 0, 0, 0, 8],
    );
}

#[test]
fn headers_and_names() {
    let body: Vec<u8> = [0x8F].into_iter().chain(1..17).collect();
    is(
        Second.header_read(&body),
        0,
        &[
            17,
            0x8F,
            1,
            2,
            0x0403,
            5,
            6,
            7,
            8,
            9,
            10,
            0x0E0D_0C0B,
            15,
            16,
        ],
    );
    is(
        Second.header_read(&[0x8C, 7, 8, 9]),
        0,
        &[3, 0x8C, 7, 8, 0, 0, 0, 0, 0, 0, 0, 0, 0, 0],
    );
    is(Second.header_read(&[0x8C, 7]), 12, &[0; 14]);
    is(Second.header_read(&[0x86]), 11, &[0; 14]);
    let header = Header {
        kind: HeaderKind::Address,
        cc: 1,
        acc: 2,
        m2: 0x0443,
        a2: [3, 4, 5, 6, 7, 8],
        sn: 9,
        payload_crc: [9, 9],
    };
    let mut out = [0xEE; 12];
    is(Second.header_write(&header, &mut out), 0, &[11]);
    assert_eq!(out, [0x8E, 1, 2, 0x43, 0x04, 3, 4, 5, 6, 7, 8, 0xEE]);
    is(Second.access(0x84), 0, &[3]);
    is(Second.maker(0x0443), 0, &[1, 0x41, 0x42, 0x43, 0]);
    is(Second.maker(0x8443), 0, &[1, 0x41, 0x42, 0x43, 1]);
    is(Second.maker(0), 0, &[0; 5]);
    is(Second.maker(0x8000), 0, &[0, 0, 0, 0, 1]);
    is(Second.filter(&[[0; 8]; 16], 1, &[0; 9]), 0, &[1]);
    is(Second.filter(&[[0; 8]; 16], 0, &[0; 9]), 0, &[0]);
    is(Second.filter(&[[1; 8]; 16], 17, &[0; 9]), 10, &[0]);
}

#[test]
fn channels() {
    is(Second.channel_row(13), 0, &[678_500, 200, 10]);
    is(Second.channel_row(7), 0, &[677_975, 50, 6]);
    is(Second.channel_row(0), 0, &[0; 3]);
    is(Second.channel_row(14), 0, &[0; 3]);
    is(Second.channel_centre(1, 5), 0, &[677_875]);
    is(Second.channel_centre(1, 6), 13, &[0]);
    is(Second.band_line(b"B\n", 1), 0, &[6, 0, 169_481_250]);
    is(Second.band_line(b"B\n", 2), 13, &[0; 3]);
    is(Second.band_line(b"b", 0), 13, &[0; 3]);
}
