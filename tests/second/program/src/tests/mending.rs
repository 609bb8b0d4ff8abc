//! Mending: code words by dividing, 12/14's edges and orders, every single wrong
//! byte, what is no single wrong byte, and what the cases reach.

use std::collections::{BTreeMap, BTreeSet};

use super::comparing::outcomes;
use super::correction::{Division, ANNEX_C};
use super::{bytes, content};
use crate::answer::Refusal;
use crate::case::{Case, Operation, Outcome};
use crate::correction::{self, times};
use crate::frames::{content_of, frame_of, Format, Sizes};
use crate::mending::{is_code_word, propose_one, take, values_of};

/// The contents whose frames have 223 bytes, the most that get check bytes.
pub const LONGEST: [(Format, usize); 2] = [(Format::A, 196), (Format::B, 218)];

pub fn frame(format: Format, n: usize) -> Vec<u8> {
    frame_of(format, &content(n)).unwrap()
}

/// A frame with its check bytes, which come from dividing.
pub fn word_of(frame: &[u8]) -> Vec<u8> {
    [frame, &Division::RIGHT.check_bytes(frame)].concat()
}

/// As it is received: the last 32 bytes behind a header.
pub fn received(word: &[u8]) -> Vec<u8> {
    let (frame, check_bytes) = word.split_at(word.len() - 32);
    [frame, &[0x21, 0x04], check_bytes].concat()
}

/// The same word with other bytes in these places.
pub fn wrong_at(word: &[u8], places: impl IntoIterator<Item = usize>) -> Vec<u8> {
    let mut wrong = word.to_vec();
    for place in places {
        wrong[place] ^= 0x40;
    }
    wrong
}

/// What is proposed for a received word, all of it.
fn proposal(format: Format, word: &[u8]) -> Vec<u8> {
    let mut out = vec![0xEE; word.len() + 3];
    let written = propose_one(format, &received(word), &mut out);
    assert_eq!(written, Ok(word.len()));
    assert_eq!(out[word.len()..], [0xEE; 3]);
    out.truncate(word.len());
    out
}

/// A refusal of the proposer, and that the output stayed.
fn refused(format: Format, received: &[u8], room: usize) -> Refusal {
    let mut out = vec![0xEE; room];
    let refusal = propose_one(format, received, &mut out).unwrap_err();
    assert_eq!(out, vec![0xEE; room]);
    refusal
}

// ------------------------------------------------------------------ code words

#[test]
fn words_that_come_from_dividing_are_taken() {
    for (format, longest) in LONGEST {
        for n in 10..=longest {
            let word = word_of(&frame(format, n));
            assert_eq!(
                take(format, &word, &received(&word)),
                Ok(0),
                "{format:?} {n}"
            );
        }
    }
}

#[test]
fn no_word_with_a_wrong_bit_is_a_code_word() {
    for (format, n) in [(Format::A, 10), (Format::B, 218)] {
        let word = word_of(&frame(format, n));
        for place in 0..word.len() {
            for bit in 0..8 {
                let mut wrong = word.clone();
                wrong[place] ^= 1 << bit;
                assert!(!is_code_word(&wrong), "{place} {bit}");
                // A wrong length byte is seen before that, or makes another word.
                if place > 0 {
                    let taken = take(format, &wrong, &received(&wrong));
                    assert_eq!(taken, Err(Refusal::NotOfTheCode), "{place} {bit}");
                }
            }
        }
    }
}

/// Frames of Annex C: taken with the check bytes that were handed over, and mended
/// in every place but the first.
#[test]
fn frames_of_annex_c() {
    for (format, frame, check_bytes) in ANNEX_C {
        let word = bytes(&format!("{frame} {check_bytes}"));
        assert_eq!(take(format, &word, &received(&word)), Ok(0));
        for place in 1..word.len() {
            let wrong = wrong_at(&word, [place]);
            assert_eq!(proposal(format, &wrong), word, "{place}");
            assert_eq!(take(format, &word, &received(&wrong)), Ok(1), "{place}");
        }
    }
}

// ---------------------------------------------------------------------- taking

#[test]
fn sixteen_bytes_may_differ_and_seventeen_may_not() {
    for (format, longest) in LONGEST {
        for n in [10, longest] {
            let word = word_of(&frame(format, n));
            let size = word.len();
            let with = |wrong: Vec<u8>| take(format, &word, &received(&wrong));
            for count in 0..=size {
                let expected = match count {
                    0..=16 => Ok(count),
                    _ => Err(Refusal::TooManyDiffer),
                };
                // From the length byte on, up to the last check byte, or spread.
                assert_eq!(with(wrong_at(&word, 0..count)), expected);
                assert_eq!(with(wrong_at(&word, size - count..size)), expected);
                let spread = (0..count).map(|index| index * (size - 1) / size.min(40));
                if count <= size.min(40) {
                    assert_eq!(with(wrong_at(&word, spread)), expected);
                }
            }
        }
    }
}

/// A byte differs once, however many of its bits do.
#[test]
fn bytes_are_counted_and_not_bits() {
    let word = word_of(&frame(Format::B, 30));
    let turned: Vec<u8> = word.iter().map(|byte| !byte).collect();
    let wrong = [&turned[..16], &word[16..]].concat();
    assert_eq!(take(Format::B, &word, &received(&wrong)), Ok(16));
}

#[test]
fn the_header_is_skipped() {
    let word = word_of(&frame(Format::A, 10));
    for header in [[0, 0], [0x04, 0x21], [0xFF, 0x7F], [0xFF, 0xFF]] {
        for (count, expected) in [(0, Ok(0)), (16, Ok(16)), (17, Err(Refusal::TooManyDiffer))] {
            let mut all = received(&wrong_at(&word, 0..count));
            all[15..17].copy_from_slice(&header);
            assert_eq!(take(Format::A, &word, &all), expected);
        }
        let mut all = received(&wrong_at(&word, [20]));
        all[15..17].copy_from_slice(&header);
        let mut out = [0; 47];
        assert_eq!(propose_one(Format::A, &all, &mut out), Ok(47));
        assert_eq!(out[..], word);
    }
}

/// Sizes go by the proposed L. The received one is a byte that may differ.
#[test]
fn the_received_length_byte_is_not_asked() {
    let word = word_of(&frame(Format::B, 30));
    let mut all = received(&word);
    for length in 0..=255 {
        all[0] = length;
        let differs = (length != word[0]) as usize;
        assert_eq!(take(Format::B, &word, &all), Ok(differs));
    }
    // It is the last of 17, too.
    let mut all = received(&wrong_at(&word, 1..17));
    assert_eq!(take(Format::B, &word, &all), Ok(16));
    all[0] ^= 1;
    assert_eq!(take(Format::B, &word, &all), Err(Refusal::TooManyDiffer));
}

/// Since sizes go by the proposal, another L makes another word of the same bytes.
/// So what was received can be near two code words: 33 bytes lie between any two
/// of one length alone.
#[test]
fn proposals_with_different_lengths_may_both_be_taken() {
    let one = word_of(&frame(Format::A, 10));
    // The longer frame has the byte more where the shorter one has its header.
    let longer = [&[11], &one[1..15], &[0xAB]].concat();
    let other = word_of(&longer);
    let mut all = [&one[..15], &[0xAB, 0], &one[15..]].concat();
    all.push(other[47]);
    // Half of the check bytes come from the longer word.
    all[18..34].copy_from_slice(&other[16..32]);
    assert_eq!(take(Format::A, &one, &all), Ok(16));
    assert_eq!(take(Format::A, &other, &all), Ok(16));
}

/// A proposal with a wrong block check is a code word like others. Only reading
/// the frame finds it out.
#[test]
fn block_checks_are_not_looked_at() {
    for format in Format::ALL {
        let mut unsound = frame(format, 40);
        unsound[5] ^= 0x10;
        let word = word_of(&unsound);
        assert_eq!(take(format, &word, &received(&word)), Ok(0));
        let wrong = wrong_at(&word, [7]);
        assert_eq!(proposal(format, &wrong), word);
        assert_eq!(take(format, &word, &received(&wrong)), Ok(1));
        let read = content_of(format, &word).unwrap_err();
        assert_eq!(read, Refusal::WrongCheck { block: 1 });
    }
}

#[test]
fn taking_refuses_1_2_23_1_25_26() {
    let go = |proposed: &[u8], received: &[u8]| take(Format::A, proposed, received).unwrap_err();
    let short = word_of(&frame(Format::A, 10));
    let heard = received(&short);
    // Without a proposal there is no L, whatever was received.
    for received in [&[][..], &[9], &heard] {
        assert_eq!(go(&[], received), Refusal::Ends);
    }
    // L decides before a byte of what was received is missed.
    for received in [&[][..], &heard[..48], &heard] {
        assert_eq!(go(&[9], received), Refusal::LengthNotAllowed);
        assert_eq!(go(&[0; 400], received), Refusal::LengthNotAllowed);
        assert_eq!(go(&[197], received), Refusal::TooLongForCorrection);
        assert_eq!(go(&[255; 400], received), Refusal::TooLongForCorrection);
        assert_eq!(go(&[196; 254], received), Refusal::Ends);
        assert_eq!(go(&short[..46], received), Refusal::Ends);
        assert_eq!(go(&short[..1], received), Refusal::Ends);
    }
    // No code word, but too few bytes for it were received.
    let no_code_word = wrong_at(&short, [46]);
    for left in [0, 1, 15, 47, 48] {
        assert_eq!(go(&short, &heard[..left]), Refusal::Ends, "{left}");
        assert_eq!(go(&no_code_word, &heard[..left]), Refusal::Ends, "{left}");
    }
    assert_eq!(go(&no_code_word, &heard), Refusal::NotOfTheCode);
    let far = received(&wrong_at(&short, 1..40));
    assert_eq!(go(&no_code_word, &far), Refusal::NotOfTheCode);
    assert_eq!(go(&short, &far), Refusal::TooManyDiffer);
    assert_eq!(go(&short, &far[..48]), Refusal::Ends);

    let of_b = |length| take(Format::B, &[length], &[]).unwrap_err();
    for length in [0, 11, 128, 129] {
        assert_eq!(of_b(length), Refusal::LengthNotAllowed, "{length}");
    }
    for length in [12, 127, 130, 222] {
        assert_eq!(of_b(length), Refusal::Ends, "{length}");
    }
    assert_eq!(of_b(223), Refusal::TooLongForCorrection);
}

/// Bytes behind either of them are not looked at.
#[test]
fn longer_ones_are_taken() {
    for format in Format::ALL {
        let word = word_of(&frame(format, 50));
        for behind in [1, 2, 32, 300] {
            let more = vec![0xAB; behind];
            let proposed = [word.clone(), more.clone()].concat();
            let heard = [received(&wrong_at(&word, 3..6)), more].concat();
            assert_eq!(take(format, &proposed, &heard), Ok(3));
            assert_eq!(take(format, &word, &heard), Ok(3));
            let mut out = vec![0xEE; 200];
            let one = [received(&wrong_at(&word, [60])), vec![0; behind]].concat();
            assert_eq!(propose_one(format, &one, &mut out), Ok(word.len()));
            assert_eq!(out[..word.len()], word);
        }
    }
}

// ------------------------------------------------------------------- proposing

#[test]
fn every_single_wrong_byte_is_mended() {
    for format in Format::ALL {
        let word = word_of(&frame(format, 10));
        for place in 1..word.len() {
            for by in 1..=255 {
                let mut wrong = word.clone();
                wrong[place] ^= by;
                assert_eq!(proposal(format, &wrong), word, "{format:?} {place} {by}");
            }
        }
    }
    for (format, n) in LONGEST {
        let word = word_of(&frame(format, n));
        assert_eq!(word.len(), 255);
        for place in 1..255 {
            for by in [0x01, 0x80, 0xFF] {
                let mut wrong = word.clone();
                wrong[place] ^= by;
                assert_eq!(proposal(format, &wrong), word, "{format:?} {place} {by}");
            }
        }
    }
}

#[test]
fn a_code_word_is_proposed_as_it_is() {
    for (format, longest) in LONGEST {
        for n in 10..=longest {
            let word = word_of(&frame(format, n));
            assert_eq!(proposal(format, &word), word, "{format:?} {n}");
        }
    }
}

/// Check bytes of the same frame with another length byte: that byte alone is
/// wrong, and it stays. So it does in a word of zeros behind it.
#[test]
fn the_length_byte_is_not_mended() {
    for (format, longest) in LONGEST {
        for n in [10, longest] {
            let right = frame(format, n);
            for length in (0..=255).filter(|&length| length != right[0]) {
                let mut other = right.clone();
                other[0] = length;
                let mut word = word_of(&other);
                assert!(is_code_word(&word));
                word[0] = right[0];
                assert_eq!(proposal(format, &word), word, "{format:?} {n} {length}");
                let taken = take(format, &word, &received(&word));
                assert_eq!(taken, Err(Refusal::NotOfTheCode));
            }
            let mut zeros = vec![0; right.len() + 32];
            zeros[0] = right[0];
            assert_eq!(proposal(format, &zeros), zeros);
        }
    }
}

/// A wrong L makes another word of what was received, or none.
#[test]
fn a_wrong_length_byte_decides_on_the_sizes() {
    let all = received(&word_of(&frame(Format::A, 100)));
    let with = |length: u8| {
        let mut wrong = all.clone();
        wrong[0] = length;
        wrong
    };
    assert_eq!(refused(Format::A, &with(9), 255), Refusal::LengthNotAllowed);
    assert_eq!(refused(Format::A, &with(101), 255), Refusal::Ends);
    assert_eq!(
        refused(Format::A, &with(197), 255),
        Refusal::TooLongForCorrection
    );
    let mut out = [0xEE; 255];
    // L 99 makes a word that is a byte shorter, so that the header is elsewhere.
    let size = frame(Format::A, 99).len();
    let wrong = with(99);
    assert_eq!(propose_one(Format::A, &wrong, &mut out), Ok(size + 32));
    assert_eq!(out[..size], wrong[..size]);
    assert_eq!(out[size..size + 32], wrong[size + 2..size + 34]);
}

#[test]
fn two_wrong_bytes_are_left() {
    for format in Format::ALL {
        let word = word_of(&frame(format, 10));
        for other in 0..word.len() {
            for one in 1..other {
                let wrong = wrong_at(&word, [one, other]);
                assert_eq!(proposal(format, &wrong), wrong, "{one} {other}");
            }
        }
        for count in 2..=word.len() - 1 {
            let wrong = wrong_at(&word, 1..=count);
            assert_eq!(proposal(format, &wrong), wrong, "{count}");
        }
    }
}

/// Check bytes of a word that has a byte in its fill: a single byte would mend it,
/// but that one is not sent.
#[test]
fn a_wrong_byte_in_the_fill_is_left() {
    for format in Format::ALL {
        let right = frame(format, 20);
        for fill in 1..=223 - right.len() {
            let mut filled = vec![0; fill];
            filled[0] = 0x77;
            filled.extend(&right);
            let word = [&right[..], &Division::RIGHT.check_bytes(&filled)].concat();
            assert_eq!(proposal(format, &word), word, "{fill}");
            let taken = take(format, &word, &received(&word));
            assert_eq!(taken, Err(Refusal::NotOfTheCode), "{fill}");
        }
    }
}

#[test]
fn proposing_refuses_1_2_23_1_4() {
    let go = |received: &[u8], room| refused(Format::A, received, room);
    let all = received(&word_of(&frame(Format::A, 196)));
    assert_eq!(all.len(), 257);
    for room in [0, 254, 400] {
        assert_eq!(go(&[], room), Refusal::Ends);
        assert_eq!(go(&[9], room), Refusal::LengthNotAllowed);
        assert_eq!(go(&[9; 400], room), Refusal::LengthNotAllowed);
        assert_eq!(go(&[197], room), Refusal::TooLongForCorrection);
        assert_eq!(go(&[255; 400], room), Refusal::TooLongForCorrection);
        for left in [1, 223, 225, 255, 256] {
            assert_eq!(go(&all[..left], room), Refusal::Ends);
        }
    }
    for room in [0, 1, 32, 223, 254] {
        assert_eq!(go(&all, room), Refusal::OutputTooSmall);
    }
    assert_eq!(propose_one(Format::A, &all, &mut [0; 255]), Ok(255));

    let of_b = |length, room| refused(Format::B, &[length], room);
    for length in [0, 11, 128, 129] {
        assert_eq!(of_b(length, 0), Refusal::LengthNotAllowed, "{length}");
    }
    for length in [12, 127, 130, 222] {
        assert_eq!(of_b(length, 0), Refusal::Ends, "{length}");
    }
    assert_eq!(of_b(223, 0), Refusal::TooLongForCorrection);
}

/// What was written, with one wrong byte: the proposal is taken with one byte that
/// differs, and reading it gives the content. With two wrong bytes it is not taken.
#[test]
fn a_mended_frame_is_read() {
    for (format, longest) in LONGEST {
        for n in [10, 26, 126, longest] {
            let sound = frame(format, n);
            let mut written = vec![0; sound.len() + 34];
            correction::write(format, &sound, &mut written).unwrap();
            for place in 1..written.len() {
                let mut all = written.clone();
                all[place] ^= 0x81;
                let mut out = vec![0; sound.len() + 32];
                propose_one(format, &all, &mut out).unwrap();
                let of_the_header = place == sound.len() || place == sound.len() + 1;
                assert_eq!(take(format, &out, &all), Ok(1 - of_the_header as usize));
                let (read, _) = content_of(format, &out).unwrap();
                assert_eq!(read, content(n));
            }
            let mut all = written.clone();
            all[3] ^= 1;
            all[9] ^= 1;
            let mut out = vec![0; sound.len() + 32];
            propose_one(format, &all, &mut out).unwrap();
            assert_eq!(take(format, &out, &all), Err(Refusal::NotOfTheCode));
        }
    }
}

// ------------------------------------------------------------ in the other way

/// The sizes of the frame that begins with this L, if there are any.
pub fn sizes_by(case: &Case, name: &str) -> Option<Sizes> {
    let format = Format::ALL[case.number("format") as usize];
    let &length = case.bytes(name).first()?;
    format.sizes(length).ok()
}

/// What dividing a word leaves over, its check bytes added: zeros for a code word.
pub fn left_over(word: &[u8]) -> Vec<u8> {
    let (frame, check_bytes) = word.split_at(word.len() - 32);
    let divided = Division::RIGHT.check_bytes(frame);
    let pairs = divided.iter().zip(check_bytes);
    pairs.map(|(one, other)| one ^ other).collect()
}

/// For each power from 0 on, what a single byte 1 there leaves over.
fn left_over_by_ones() -> Vec<Vec<u8>> {
    let one = |power: usize| {
        let mut word = vec![0; 255];
        word[254 - power] = 1;
        left_over(&word)
    };
    (0..255).map(one).collect()
}

/// A word is mended by the byte, but the first, that alone leaves over the same.
fn mended_by_dividing(word: &[u8], by_ones: &[Vec<u8>]) -> Vec<u8> {
    let rest = left_over(word);
    let mut mended = word.to_vec();
    for (place, by_one) in (1..word.len()).zip(by_ones[..word.len() - 1].iter().rev()) {
        let leaves = |off: &u8| {
            by_one
                .iter()
                .zip(&rest)
                .all(|(&one, &byte)| times(one, *off) == byte)
        };
        if let Some(off) = (1..=255).find(leaves) {
            mended[place] ^= off;
        }
    }
    mended
}

#[test]
fn proposals_are_those_by_dividing() {
    let by_ones = left_over_by_ones();
    let mut met = BTreeMap::new();
    for (case, outcome) in outcomes(Operation::ProposeOne, 1500) {
        if outcome.answer.number != 0 {
            continue;
        }
        let size = outcome.answer.row[0] as usize;
        let mut word = case.bytes("received")[..size + 2].to_vec();
        word.drain(size - 32..size - 30);
        let mended = mended_by_dividing(&word, &by_ones);
        assert_eq!(outcome.lent[..size], mended, "{case}");
        let right = left_over(&mended) == [0; 32];
        *met.entry((mended != word, right)).or_insert(0) += 1;
    }
    // Mended, right from the start, or left as it was.
    let kinds: Vec<(bool, bool)> = met.keys().copied().collect();
    assert_eq!(kinds, [(false, false), (false, true), (true, true)]);
    assert!(met.values().all(|&count| count > 50), "{met:?}");
}

#[test]
fn code_words_are_those_by_dividing() {
    for (case, outcome) in outcomes(Operation::TakeProposal, 1500) {
        let number = outcome.answer.number;
        if [0, 25, 26].contains(&number) {
            let size = sizes_by(&case, "proposed").unwrap().frame;
            let proposal = &case.bytes("proposed")[..size + 32];
            let right = left_over(proposal) == [0; 32];
            assert_eq!(number == 25, !right, "{case}");
        }
    }
}

// ------------------------------------------------------- what the cases reach

/// Every number of differing bytes about 16 in both formats, with and without the
/// length byte among them; proposals that are 0 at all roots but one, and at none.
#[test]
fn cases_of_proposals_meet_the_edges() {
    let mut differ = BTreeSet::new();
    let mut only_root = BTreeSet::new();
    let mut roots_seen = BTreeSet::new();
    for (case, outcome) in outcomes(Operation::TakeProposal, 20_000) {
        let number = outcome.answer.number;
        if ![0, 25, 26].contains(&number) {
            continue;
        }
        let size = sizes_by(&case, "proposed").unwrap().frame;
        let proposed = &case.bytes("proposed")[..size + 32];
        let mut word = case.bytes("received")[..size + 34].to_vec();
        let bad_header = word.drain(size..size + 2).ne([0x21, 0x04]);
        let count = proposed
            .iter()
            .zip(&word)
            .filter(|(one, other)| one != other)
            .count();
        let format = case.number("format");
        differ.insert((format, number, count, proposed[0] != word[0], bad_header));
        if number == 25 {
            let values = values_of(proposed);
            let seen = (0..32).filter(|&root| values[root] != 0);
            let seen: Vec<usize> = seen.collect();
            roots_seen.insert(seen.len());
            if let [root] = seen[..] {
                only_root.insert(root);
            }
        }
    }
    for format in [0, 1] {
        for bad_header in [false, true] {
            let has = |number, count, length_byte| {
                differ.contains(&(format, number, count, length_byte, bad_header))
            };
            assert!([0, 1, 2, 15, 16].iter().all(|&count| has(0, count, false)));
            assert!([1, 2, 15, 16].iter().all(|&count| has(0, count, true)));
            for length_byte in [false, true] {
                assert!(has(26, 17, length_byte) && has(26, 18, length_byte));
                assert!((17..=40).any(|count| has(25, count, length_byte)));
                assert!((0..=16).any(|count| has(25, count, length_byte)));
            }
        }
    }
    assert_eq!(only_root, (0..32).collect());
    assert!(roots_seen.contains(&32));
}

/// How much more there is than the frame with so many bytes behind it, at most by 2.
fn spare(case: &Case, name: &str, frame: usize, behind: usize) -> i64 {
    let spare = case.bytes(name).len() as i64 - (frame + behind) as i64;
    spare.clamp(-3, 2)
}

/// Frames on each side of 223 bytes and the shortest, with every length of what is
/// proposed and received about what is needed.
#[test]
fn cases_of_proposals_meet_the_sizes() {
    let mut met = BTreeSet::new();
    let mut numbers_without_bytes = BTreeSet::new();
    for (case, outcome) in outcomes(Operation::TakeProposal, 20_000) {
        let (format, number) = (case.number("format"), outcome.answer.number);
        if case.bytes("received").is_empty() {
            numbers_without_bytes.insert(number);
        }
        if let Some(Sizes { frame, .. }) = sizes_by(&case, "proposed") {
            let proposed = spare(&case, "proposed", frame, 32);
            let received = spare(&case, "received", frame, 34);
            met.insert((format, frame, number, proposed, received));
        }
    }
    // Nothing received is a refusal of its own only behind 2 and 23.
    assert_eq!(numbers_without_bytes, BTreeSet::from([1, 2, 23]));
    for (format, shortest) in [(0, 15), (1, 13)] {
        let has = |frame, number, proposed, received| {
            met.contains(&(format, frame, number, proposed, received))
        };
        for frame in [shortest, 223] {
            for (proposed, received) in [(0, 0), (0, 1), (1, 0), (0, 2), (2, 0)] {
                assert!(has(frame, 0, proposed, received), "{frame}");
            }
            assert!(has(frame, 25, 0, 0) && (1..=2).any(|more| has(frame, 25, more, 0)));
            for short in -3..=-1 {
                assert!(
                    has(frame, 1, short, 0) && has(frame, 1, 0, short),
                    "{frame}"
                );
            }
        }
        for spare in -3..=2 {
            assert!(has(224, 23, spare, 0) && has(224, 23, 0, spare), "{spare}");
        }
    }
}

/// The places in which an accepted proposal differs from what was received.
pub fn mended_places(case: &Case, outcome: &Outcome) -> Vec<usize> {
    let size = outcome.answer.row[0] as usize;
    let mut word = case.bytes("received")[..size + 2].to_vec();
    word.drain(size - 32..size - 30);
    let places = 0..size;
    places
        .filter(|&place| outcome.lent[place] != word[place])
        .collect()
}

/// Frames on each side of 223 bytes and the shortest: mended in the first and the
/// last place that can be.
#[test]
fn cases_of_the_proposer_meet_the_edges() {
    let outcomes = outcomes(Operation::ProposeOne, 20_000);
    meet_the_rooms(&outcomes);
    let mut mended = BTreeSet::new();
    for (case, outcome) in outcomes {
        if outcome.answer.number == 0 {
            let frame = outcome.answer.row[0] as usize - 32;
            let place = mended_places(&case, &outcome).first().copied();
            mended.insert((case.number("format"), frame, place));
        }
    }
    for (format, shortest) in [(0, 15), (1, 13)] {
        for frame in [shortest, 223] {
            for place in [1, frame - 1, frame, frame + 31] {
                let has = mended.contains(&(format, frame, Some(place)));
                assert!(has, "{frame} {place}");
            }
            assert!(mended.contains(&(format, frame, None)));
            assert!(!mended.contains(&(format, frame, Some(0))));
        }
    }
}

/// Frames on each side of 223 bytes and the shortest came to a proposer with every room
/// and every length about what is needed.
pub fn meet_the_rooms(outcomes: &[(Case, Outcome)]) {
    let mut met = BTreeSet::new();
    for (case, outcome) in outcomes {
        if let Some(Sizes { frame, .. }) = sizes_by(case, "received") {
            let received = spare(case, "received", frame, 34);
            let room = spare(case, "out", frame, 32);
            let (format, number) = (case.number("format"), outcome.answer.number);
            met.insert((format, frame, number, received, room));
        }
    }
    for (format, shortest) in [(0, 15), (1, 13)] {
        let has =
            |frame, number, received, room| met.contains(&(format, frame, number, received, room));
        for frame in [shortest, 223] {
            assert!((0..=2).all(|room| has(frame, 0, 0, room)), "{frame}");
            for received in 0..=2 {
                assert!((0..=2).any(|room| has(frame, 0, received, room)), "{frame}");
                assert!(
                    (-3..=-1).any(|room| has(frame, 4, received, room)),
                    "{frame}"
                );
            }
            for received in -3..=-1 {
                assert!((0..=2).any(|room| has(frame, 1, received, room)), "{frame}");
                assert!(
                    (-3..=-1).any(|room| has(frame, 1, received, room)),
                    "{frame}"
                );
            }
            assert!(has(frame, 4, 0, -1));
        }
        for received in -3..=2 {
            assert!((-3..=2).any(|room| has(224, 23, received, room)));
        }
        assert!([-3, -1, 0, 1, 2].iter().all(|&room| has(224, 23, 0, room)));
    }
}
