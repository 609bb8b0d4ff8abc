//! The wrapper over the frames of EN 13757-4:2019, Annex C: round trips, and refusals that leave lent memory alone.
use kusikhut::{Access, Code, Format, Header, Kind, Maker, Reach, Refusal};
use std::fmt::Debug;

const CONTENT: [u8; 15] = [0x44, 0xAE, 0x0C, 0x78, 0x56, 0x34, 0x12, 0x01, 0x07, 0x78, 0x0B, 0x13, 0x43, 0x65, 0x87];
const FRAME: [u8; 20] = [
    0x0F, 0x44, 0xAE, 0x0C, 0x78, 0x56, 0x34, 0x12, 0x01, 0x07, 0x44, 0x47, 0x78, 0x0B, 0x13, 0x43, 0x65, 0x87, 0x1E,
    0x6D,
];
const UNTOUCHED: u8 = 0xEE;

/// The refusal in the words of docs/RULES.md.
fn refused<T: Debug>(answer: Result<T, Refusal>) -> String {
    answer.expect_err("this is refused").to_string()
}

#[test]
fn a_frame_is_written_read_and_changed() {
    let mut frame = [UNTOUCHED; 24];
    assert_eq!(Format::A.write(&CONTENT, &mut frame), Ok(20));
    assert_eq!((&frame[..20], &frame[20..]), (&FRAME[..], &[UNTOUCHED; 4][..]));
    assert_eq!(Format::A.change(&mut frame, 0, 0x46).map(|f| (f.size, f.n)), Ok((20, 15)));
    let mut out = [UNTOUCHED; 16];
    assert_eq!(Format::A.read(&frame, &mut out).map(|f| f.n), Ok(15));
    assert_eq!((out[0], &out[1..15], out[15]), (0x46, &CONTENT[1..], UNTOUCHED));
}

#[test]
fn a_refusal_leaves_lent_memory() {
    let mut out = [UNTOUCHED; 15];
    assert_eq!(refused(Format::A.read(&[], &mut out)), "1 too-short");
    assert_eq!(refused(Format::A.read(&FRAME[..18], &mut out)), "1 too-short");
    assert_eq!(refused(Format::B.read(&[11], &mut out)), "2 length-not-allowed");
    assert_eq!(refused(Format::A.read(&FRAME, &mut out[..14])), "4 no-room");
    let mut wrong = FRAME;
    wrong[12] ^= 0x80;
    assert_eq!(refused(Format::A.read(&wrong, &mut out)), "3 wrong-check block=2");
    assert_eq!(refused(Format::A.write(&CONTENT[..9], &mut out)), "5 content-length-not-allowed");
    assert_eq!(out, [UNTOUCHED; 15]);
    let mut frame = FRAME;
    assert_eq!(refused(Format::A.change(&mut frame, 15, 0)), "9 no-such-place");
    assert_eq!(frame, FRAME);
}

#[test]
fn every_kind_is_received_as_it_was_sent() {
    for kind in [Kind::TWithA, Kind::CWithA, Kind::CWithB, Kind::ManchesterWithA] {
        let (mut chips, mut out) = ([0u8; 64], [UNTOUCHED; 15]);
        let bytes = kind.send(&CONTENT, &mut chips).expect("there is room") as usize;
        let got = match kind {
            Kind::ManchesterWithA => kusikhut::receive_manchester(&chips[..bytes], 0, &mut out),
            _ => kusikhut::receive(&chips[..bytes], 0, usize::MAX, &mut out),
        };
        assert_eq!(got.map(|r| (r.kind, r.place, r.n)), Ok((kind, 0, 15)));
        assert_eq!(out, CONTENT);
    }
}

#[test]
fn any_number_gets_an_answer() {
    let mut out = [UNTOUCHED; 4];
    assert_eq!(refused(Code::Nrz.decode(&[], usize::MAX, usize::MAX, &mut out)), "10 out-of-range");
    assert_eq!(refused(Code::Manchester.decode(&[0x9A, 0x9A], 0, usize::MAX, &mut out)), "1 too-short");
    assert_eq!(refused(kusikhut::receive(&[0; 1025], 0, usize::MAX, &mut out)), "10 out-of-range");
    assert_eq!(refused(kusikhut::search(&[0; 4], 32, usize::MAX)), "7 no-sync tried=0");
    assert_eq!(refused(kusikhut::search(&[0; 4], 0, 5)), "14 allowance-used-up tried=5");
    assert_eq!(refused(kusikhut::update(0, 0, 0, usize::MAX)), "10 out-of-range");
    assert_eq!(refused(kusikhut::wanted(&[[0; 8]; 16], usize::MAX, &CONTENT)), "10 out-of-range");
    assert_eq!(refused(kusikhut::centre(usize::MAX, usize::MAX)), "13 no-such-channel");
    assert_eq!(out, [UNTOUCHED; 4]);
}

#[test]
fn line_codes_are_each_other_s_inverse() {
    for code in [Code::Nrz, Code::ThreeOfSix, Code::Manchester] {
        let (mut chips, mut out) = ([0u8; 40], [0u8; 20]);
        let size = code.encode(&FRAME, &mut chips).expect("there is room") as usize;
        assert_eq!(code.decode(&chips[..size], 0, 20, &mut out), Ok(()));
        assert_eq!(out, FRAME);
    }
    assert_eq!(refused(Code::ThreeOfSix.word(&[0x54], 0)), "6 not-a-code-word word=0");
}

#[test]
fn headers_and_names() {
    let header = Header::AddressedSecured {
        cc: 0x84,
        acc: 7,
        m2: 0x0CAE,
        a2: [1, 2, 3, 4, 5, 6],
        sn: 0x01020304,
        crc: [0xAB, 0xCD],
    };
    let mut out = [UNTOUCHED; 18];
    assert_eq!(header.write(&mut out), Ok(17));
    assert_eq!((Header::read(&out), out[17]), (Ok((header, 17)), UNTOUCHED));
    assert_eq!(refused(Header::read(&[])), "12 body-too-short");
    assert_eq!(refused(Header::read(&[0x86])), "11 unknown-ci");
    assert_eq!(kusikhut::access(0x84), Access::Always);
    let soft = Maker { letters: Some(*b"ABC"), reach: Reach::Soft };
    assert_eq!((kusikhut::maker(0x8443), kusikhut::maker(0x0443)), (soft, Maker { reach: Reach::Hard, ..soft }));
    let mut entries = [[0u8; 8]; 16];
    entries[15].copy_from_slice(&CONTENT[1..9]);
    assert_eq!(kusikhut::wanted(&entries, 16, &CONTENT), Ok(true));
    assert_eq!(kusikhut::wanted(&entries, 15, &CONTENT), Ok(false));
}

/// Demand 3, run: after each of a thousand changes, refused ones among them, the buffer holds the frame written afresh.
#[test]
fn changes_in_any_order_are_writing_afresh() {
    let mut state = 20_261_115u64;
    let mut next = move |below: usize| {
        state ^= state << 13;
        state ^= state >> 7;
        state ^= state << 17;
        (state % below as u64) as usize
    };
    for (format, n) in [(Format::A, 10), (Format::A, 255), (Format::B, 125), (Format::B, 126), (Format::B, 251)] {
        let mut content: Vec<u8> = (0..n).map(|i| (7 * i + 3) as u8).collect();
        let mut frame = [UNTOUCHED; 300];
        let size = format.write(&content, &mut frame).expect("there is room") as usize;
        let mut refused = 0;
        for _ in 0..1000 {
            let (place, byte) = (next(n + n / 4), next(256) as u8);
            match format.change(&mut frame, place, byte) {
                Ok(f) => {
                    assert_eq!((f.size as usize, f.n as usize), (size, n));
                    content[place] = byte;
                }
                Err(why) => {
                    assert_eq!((why.name(), place >= n), ("no-such-place", true));
                    refused += 1;
                }
            }
            let mut afresh = [UNTOUCHED; 300];
            format.write(&content, &mut afresh).expect("there is room");
            assert_eq!(frame, afresh);
        }
        assert!(refused > 0, "no change was refused: this run shows less than it says");
    }
}
