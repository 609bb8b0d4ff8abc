//! The proposer of up to 16 wrong bytes: every number of them, what it must not claim,
//! its refusals, the same by another algorithm, and what the cases reach.

use std::collections::{BTreeMap, BTreeSet};
use std::sync::OnceLock;

use super::bytes;
use super::comparing::{outcomes, SEED};
use super::correction::{Division, ANNEX_C};
use super::mending::{
    frame, left_over, meet_the_rooms, mended_places, received, word_of, wrong_at, LONGEST,
};
use crate::answer::Refusal;
use crate::case::{Case, Operation};
use crate::correction::{self, check_bytes_of, times};
use crate::decoding::propose;
use crate::frames::{content_of, Format};
use crate::generator::patterns::summed_check_bytes;
use crate::implementation::Second;
use crate::mending::{different, is_code_word, propose_one, take};
use crate::patterns::compare_patterns;
use crate::random::Random;

/// What is proposed for what was received with any header, all of it.
fn proposal_of(format: Format, received: &[u8]) -> Vec<u8> {
    let size = received.len() - 2;
    let mut out = vec![0xEE; size + 3];
    assert_eq!(propose(format, received, &mut out), Ok(size));
    assert_eq!(out[size..], [0xEE; 3]);
    out.truncate(size);
    out
}

fn proposal(format: Format, word: &[u8]) -> Vec<u8> {
    proposal_of(format, &received(word))
}

/// A refusal, and that the output stayed.
fn refused(format: Format, received: &[u8], room: usize) -> Refusal {
    let mut out = vec![0xEE; room];
    let refusal = propose(format, received, &mut out).unwrap_err();
    assert_eq!(out, vec![0xEE; room]);
    refusal
}

/// So many wrong bytes anywhere but in the first place.
fn wrong_anywhere(random: &mut Random, word: &[u8], count: usize) -> Vec<u8> {
    let mut left: Vec<usize> = (1..word.len()).collect();
    let mut wrong = word.to_vec();
    for _ in 0..count {
        let place = left.swap_remove(random.below(left.len()));
        wrong[place] ^= 1 + random.below(255) as u8;
    }
    wrong
}

/// What is proposed may be claimed: it is taken with the same length byte, or it is
/// what was received, which then is no code word with a length byte of its own.
fn is_honest(format: Format, word: &[u8], proposal: &[u8]) -> bool {
    let taken = take(format, proposal, &received(word)).is_ok();
    (taken && proposal[0] == word[0]) || (proposal == word && !is_code_word(word))
}

// -------------------------------------------------------------- what is mended

/// Frames of Annex C, with the check bytes that were handed over: every number of
/// wrong bytes in front, at the end and anywhere.
#[test]
fn frames_of_annex_c() {
    let mut random = Random::new(4);
    for (format, frame, check_bytes) in ANNEX_C {
        let word = bytes(&format!("{frame} {check_bytes}"));
        let size = word.len();
        for count in 0..=16 {
            let wrongs = [
                wrong_at(&word, 1..=count),
                wrong_at(&word, size - count..size),
                wrong_anywhere(&mut random, &word, count),
            ];
            for wrong in wrongs {
                assert_eq!(proposal(format, &wrong), word, "{count}");
                assert_eq!(take(format, &word, &received(&wrong)), Ok(count));
            }
        }
        for count in 17..size {
            let wrong = wrong_at(&word, 1..=count);
            assert_eq!(proposal(format, &wrong), wrong, "{count}");
        }
    }
}

#[test]
fn every_number_of_wrong_bytes_up_to_16_is_mended() {
    let mut random = Random::new(5);
    for (format, longest) in LONGEST {
        let lengths = (10..30).chain((30..longest).step_by(9)).chain([longest]);
        for n in lengths {
            let word = word_of(&frame(format, n));
            for count in 0..=16 {
                let wrong = wrong_anywhere(&mut random, &word, count);
                assert_eq!(proposal(format, &wrong), word, "{format:?} {n} {count}");
                assert_eq!(take(format, &word, &received(&wrong)), Ok(count));
            }
        }
    }
}

#[test]
fn sixteen_neighbours_are_mended_from_any_place_on() {
    for (format, longest) in LONGEST {
        for n in [10, longest] {
            let word = word_of(&frame(format, n));
            for first in 1..=word.len() - 16 {
                let wrong = wrong_at(&word, first..first + 16);
                assert_eq!(proposal(format, &wrong), word, "{format:?} {n} {first}");
            }
        }
    }
}

/// Whatever the proposer of one mends, this one mends in the same way.
#[test]
fn a_single_wrong_byte_is_mended_by_both() {
    let mut mended = 0;
    for (case, outcome) in outcomes(Operation::ProposeOne, 1500) {
        if outcome.answer.number == 0 && !mended_places(&case, &outcome).is_empty() {
            let line = case.to_string().replace("propose_one", "propose");
            assert_eq!(
                Case::from_text(&line).unwrap().run(&Second),
                outcome,
                "{case}"
            );
            mended += 1;
        }
    }
    assert!(mended > 150, "{mended}");
}

#[test]
fn the_header_is_skipped() {
    let word = word_of(&frame(Format::A, 10));
    let wrong = wrong_at(&word, 10..26);
    for header in [[0, 0], [0x04, 0x21], [0xFF, 0x7F], [0xFF, 0xFF]] {
        let mut all = received(&wrong);
        all[15..17].copy_from_slice(&header);
        assert_eq!(proposal_of(Format::A, &all), word);
    }
}

/// Nobody looks at block checks: reading the mended frame does.
#[test]
fn block_checks_are_not_looked_at() {
    for format in Format::ALL {
        let mut unsound = frame(format, 40);
        unsound[5] ^= 0x10;
        let word = word_of(&unsound);
        assert_eq!(proposal(format, &wrong_at(&word, 2..18)), word);
        let read = content_of(format, &word).unwrap_err();
        assert_eq!(read, Refusal::WrongCheck { block: 1 });
    }
}

/// What was written comes back, whatever is behind it in the buffer.
#[test]
fn a_mended_frame_is_read() {
    let mut random = Random::new(6);
    for (format, longest) in LONGEST {
        for n in [10, 26, 126, longest] {
            let sound = frame(format, n);
            let mut written = vec![0; sound.len() + 34];
            correction::write(format, &sound, &mut written).unwrap();
            let mut word = written.clone();
            word.drain(sound.len()..sound.len() + 2);
            for behind in [0, 1, 300] {
                let mut all = received(&wrong_anywhere(&mut random, &word, 16));
                all.extend(vec![0xAB; behind]);
                let before = all.clone();
                let mut out = vec![0; word.len()];
                assert_eq!(propose(format, &all, &mut out), Ok(word.len()));
                assert_eq!(all, before);
                assert_eq!(take(format, &out, &all), Ok(16));
                assert_eq!(content_of(format, &out), content_of(format, &sound));
            }
        }
    }
}

// ---------------------------------------------------------- what is not claimed

#[test]
fn more_wrong_bytes_are_never_claimed_wrongly() {
    let mut random = Random::new(7);
    for (format, longest) in LONGEST {
        for n in (10..=longest).step_by(12).chain([longest]) {
            let word = word_of(&frame(format, n));
            for count in (17..=32).chain([40]) {
                let wrong = wrong_anywhere(&mut random, &word, count);
                let proposed = proposal(format, &wrong);
                assert!(
                    is_honest(format, &wrong, &proposed),
                    "{format:?} {n} {count}"
                );
                assert_ne!(proposed, word);
            }
        }
    }
}

/// Two code words of one length that differ in a byte and in all of the check bytes.
/// On the way from one to the other there are always 16 wrong bytes or fewer.
#[test]
fn the_nearer_of_two_code_words_is_proposed() {
    for (format, longest) in LONGEST {
        for n in [10, longest] {
            let one = word_of(&frame(format, n));
            let size = one.len();
            for place in [1, size - 33] {
                let other = word_of(&wrong_at(&one, [place])[..size - 32]);
                assert_eq!(different(&one, &other), 33);
                for step in 0..=32 {
                    let end = size - 32 + step;
                    let on_the_way = [&one[..size - 32], &other[size - 32..end], &one[end..]];
                    let nearer = if step <= 16 { &one } else { &other };
                    assert_eq!(&proposal(format, &on_the_way.concat()), nearer, "{step}");
                }
            }
        }
    }
}

/// Check bytes of the same frame with another length byte, with and without other
/// wrong bytes: the code word that is near has the wrong length byte. So it has for a
/// word of zeros.
#[test]
fn the_length_byte_is_never_changed() {
    let mut random = Random::new(8);
    for (format, longest) in LONGEST {
        for n in [10, longest] {
            let right = frame(format, n);
            for by in [0x01, 0x10, 0x80, 0xFF] {
                let mut word = word_of(&wrong_by(&right, by));
                word[0] = right[0];
                for count in 0..=16 {
                    let wrong = wrong_anywhere(&mut random, &word, count);
                    assert_eq!(proposal(format, &wrong), wrong, "{format:?} {n} {count}");
                }
            }
            let mut zeros = vec![0; right.len() + 32];
            zeros[0] = right[0];
            assert_eq!(proposal(format, &zeros), zeros);
        }
    }
}

/// The frame with another length byte.
fn wrong_by(frame: &[u8], by: u8) -> Vec<u8> {
    let mut wrong = frame.to_vec();
    wrong[0] ^= by;
    wrong
}

/// Check bytes of a word that has a byte in its fill, with and without other wrong
/// bytes: up to 15 of them the code word that is near is no word of this length.
#[test]
fn a_wrong_byte_in_the_fill_is_left() {
    let mut random = Random::new(9);
    for format in Format::ALL {
        let right = frame(format, 20);
        for fill in (1..=223 - right.len()).step_by(7) {
            let mut filled = vec![0; fill];
            filled[0] = 0x77;
            filled.extend(&right);
            let word = [&right[..], &Division::RIGHT.check_bytes(&filled)].concat();
            for count in 0..=15 {
                let wrong = wrong_anywhere(&mut random, &word, count);
                assert_eq!(proposal(format, &wrong), wrong, "{fill} {count}");
            }
        }
    }
}

#[test]
fn proposing_refuses_1_2_23_1_4() {
    let go = |received: &[u8], room| refused(Format::A, received, room);
    let all = received(&wrong_at(&word_of(&frame(Format::A, 196)), 100..116));
    for room in [0, 254, 400] {
        assert_eq!(go(&[], room), Refusal::Ends);
        assert_eq!(go(&[9], room), Refusal::LengthNotAllowed);
        assert_eq!(go(&[9; 400], room), Refusal::LengthNotAllowed);
        assert_eq!(go(&[197], room), Refusal::TooLongForCorrection);
        assert_eq!(go(&[255; 400], room), Refusal::TooLongForCorrection);
        for left in [1, 223, 225, 255, 256] {
            assert_eq!(go(&all[..left], room), Refusal::Ends);
        }
    }
    for room in [0, 1, 32, 223, 254] {
        assert_eq!(go(&all, room), Refusal::OutputTooSmall);
    }
    assert_eq!(propose(Format::A, &all, &mut [0; 255]), Ok(255));

    let of_b = |length, room| refused(Format::B, &[length], room);
    for length in [0, 11, 128, 129] {
        assert_eq!(of_b(length, 0), Refusal::LengthNotAllowed, "{length}");
    }
    for length in [12, 127, 130, 222] {
        assert_eq!(of_b(length, 0), Refusal::Ends, "{length}");
    }
    assert_eq!(of_b(223, 0), Refusal::TooLongForCorrection);
}

/// Both proposers refuse the same, whatever they are given.
#[test]
fn both_proposers_refuse_the_same() {
    for (case, outcome) in outcomes(Operation::Propose, 1500) {
        let format = Format::ALL[case.number("format") as usize];
        let mut out = case.bytes("out").to_vec();
        let by_one = propose_one(format, case.bytes("received"), &mut out);
        let number = by_one.map_or_else(Refusal::number, |_| 0);
        assert_eq!(number, outcome.answer.number, "{case}");
        assert!(number == 0 || outcome.lent == case.bytes("out"), "{case}");
    }
}

// ------------------------------------------------------------ in the other way

/// Alpha to any power, by doubling.
fn alpha_to(power: usize) -> u8 {
    static POWERS: OnceLock<Vec<u8>> = OnceLock::new();
    let double = |&power: &u8| Some((power << 1) ^ if power > 0x7F { 0x87 } else { 0 });
    let powers = || std::iter::successors(Some(1), double).take(255).collect();
    POWERS.get_or_init(powers)[power % 255]
}

/// The power of alpha that a byte is; of 0 there is none.
fn power_of(byte: u8) -> Option<usize> {
    (0..255).find(|&power| alpha_to(power) == byte)
}

fn inverse(byte: u8) -> u8 {
    power_of(byte).map_or(0, |power| alpha_to(255 - power))
}

/// The value of factors, lowest power first.
fn value(factors: &[u8], at: u8) -> u8 {
    let factors = factors.iter().rev();
    factors.fold(0, |sum, &factor| times(sum, at) ^ factor)
}

/// Mending in the other way: the locator is the shortest shift register that makes the
/// values (Berlekamp, Massey), and powers are those of alpha. With other numbers it is
/// a wrong one.
#[derive(Clone, Copy, Debug, PartialEq)]
pub struct Massey {
    /// Values are looked at from the root alpha^(11 j) with this j on.
    pub first: usize,
    /// So many of them.
    pub count: usize,
    /// The j of the first value, as Forney's formula has it.
    pub in_forney: usize,
    /// The evaluator has so many factors.
    pub of_evaluator: usize,
    /// The first byte counts x^254, whatever the length of the word.
    pub fill_behind: bool,
}

impl Massey {
    /// As 11/14 has it.
    pub const RIGHT: Massey = Massey {
        first: 112,
        count: 32,
        in_forney: 112,
        of_evaluator: 16,
        fill_behind: false,
    };

    fn values(&self, word: &[u8]) -> Vec<u8> {
        let roots = self.first..self.first + self.count;
        let backwards: Vec<u8> = word.iter().rev().copied().collect();
        roots.map(|j| value(&backwards, alpha_to(11 * j))).collect()
    }

    /// What comes out for a word, not judged.
    pub fn changed(&self, word: &[u8]) -> Vec<u8> {
        let values = self.values(word);
        let register = register(&values);
        let evaluator = product_below(&register, &values[..self.of_evaluator]);
        // The derivative, times z: the odd powers. Where the register is 0, the even ones
        // would do as well.
        let mut derived = register.clone();
        derived.iter_mut().step_by(2).for_each(|even| *even = 0);

        let mut changed = word.to_vec();
        for (place, byte) in changed.iter_mut().enumerate() {
            let power = if self.fill_behind {
                254 - place
            } else {
                word.len() - 1 - place
            };
            let back = 11 * (255 - power);
            let z = alpha_to(back);
            if value(&register, z) == 0 {
                // A power of z too many below is the X of X^(1 - 112).
                let off = times(value(&evaluator, z), inverse(value(&derived, z)));
                *byte ^= times(off, alpha_to(self.in_forney * back));
            }
        }
        changed
    }

    /// The same, and what was received if it may not be claimed.
    pub fn proposal(&self, word: &[u8]) -> Vec<u8> {
        let changed = self.changed(word);
        let near = different(&changed, word) <= 16 && changed[0] == word[0];
        if near && is_code_word(&changed) {
            changed
        } else {
            word.to_vec()
        }
    }
}

/// The shortest register that makes the values: each is the sum of those before it,
/// times its factors. The first factor is 1.
fn register(values: &[u8]) -> Vec<u8> {
    let mut now = vec![1];
    let mut length = 0;
    // The register before the last that had to become longer, by how much it failed,
    // and how many values ago that was.
    let (mut before, mut failed, mut ago) = (vec![1], 1, 1);
    for (index, _) in values.iter().enumerate() {
        let made = |sum, (back, &factor): (usize, &u8)| sum ^ times(factor, values[index - back]);
        let fails = now.iter().enumerate().take(index + 1).fold(0, made);
        let often = times(fails, inverse(failed));
        let mut next: Vec<u8> = now.clone();
        next.resize(now.len().max(before.len() + ago), 0);
        for (place, &factor) in before.iter().enumerate() {
            next[place + ago] ^= times(often, factor);
        }
        if fails != 0 && 2 * length <= index {
            length = index + 1 - length;
            (before, failed, ago) = (now, fails, 0);
        }
        ago += 1;
        now = next;
    }
    now
}

/// The product of two, lowest power first, cut to as many factors as the other has.
fn product_below(one: &[u8], other: &[u8]) -> Vec<u8> {
    let mut product = vec![0; other.len()];
    for (left, &factor) in one.iter().enumerate() {
        for (place, &of_other) in (left..product.len()).zip(other) {
            product[place] ^= times(factor, of_other);
        }
    }
    product
}

#[test]
fn proposals_are_those_of_the_shift_register() {
    let mut met = BTreeMap::new();
    for (case, outcome) in outcomes(Operation::Propose, 2500) {
        if outcome.answer.number != 0 {
            continue;
        }
        let size = outcome.answer.row[0] as usize;
        let mut word = case.bytes("received")[..size + 2].to_vec();
        word.drain(size - 32..size - 30);
        let mended = Massey::RIGHT.proposal(&word);
        assert_eq!(outcome.lent[..size], mended, "{case}");
        *met.entry((mended != word, is_code_word(&mended)))
            .or_insert(0) += 1;
    }
    // Mended, right from the start, or left as it was.
    let kinds: Vec<(bool, bool)> = met.keys().copied().collect();
    assert_eq!(kinds, [(false, false), (false, true), (true, true)]);
    assert!(met.values().all(|&count| count > 40), "{met:?}");
}

// ------------------------------------------------------- what the cases reach

/// Every number of wrong bytes from 0 to 16 of the shortest words and the longest, in
/// every edge of frame and check bytes; the length byte never. What is left as it was
/// is no code word.
#[test]
fn cases_of_the_proposer_meet_the_edges() {
    let outcomes = outcomes(Operation::Propose, 20_000);
    meet_the_rooms(&outcomes);
    let mut numbers = BTreeSet::new();
    let mut places = BTreeSet::new();
    for (case, outcome) in outcomes {
        if outcome.answer.number != 0 {
            continue;
        }
        let (format, size) = (case.number("format"), outcome.answer.row[0] as usize);
        let mended = mended_places(&case, &outcome);
        let right = is_code_word(&outcome.lent[..size]);
        numbers.insert((format, size, right, mended.len()));
        places.extend(mended.into_iter().map(|place| (format, size, place)));
    }
    for (format, shortest) in [(0, 47), (1, 45)] {
        for size in [shortest, 255] {
            for count in 0..=16 {
                assert!(
                    numbers.contains(&(format, size, true, count)),
                    "{size} {count}"
                );
            }
            assert!(numbers.contains(&(format, size, false, 0)));
            for place in [1, size - 33, size - 32, size - 1] {
                assert!(places.contains(&(format, size, place)), "{size} {place}");
            }
            assert!(!places.contains(&(format, size, 0)));
        }
    }
}

// --------------------------------------------------------------------- patterns

#[test]
fn patterns_meet_every_number_of_wrong_bytes() {
    let counts = compare_patterns(&Second, &Second, SEED, 4000).unwrap();
    let numbers: Vec<usize> = counts.0.keys().copied().collect();
    assert_eq!(numbers, (3..=40).collect::<Vec<_>>());
    assert_eq!((3..=16).map(|wrong| counts.0[&wrong]).sum::<u64>(), 4000);
    assert_eq!((17..=40).map(|wrong| counts.0[&wrong]).sum::<u64>(), 1000);
    assert!(counts.to_string().ends_with("\n5000 cases"));
    assert_eq!(compare_patterns(&Second, &Second, SEED, 4000), Ok(counts));
}

#[test]
fn summed_check_bytes_are_those_of_the_word() {
    for (format, longest) in LONGEST {
        for n in (10..=longest).step_by(20).chain([longest]) {
            let frame = frame(format, n);
            let summed = summed_check_bytes(&frame);
            assert_eq!(summed, check_bytes_of(&frame).unwrap());
            assert_eq!(left_over(&[frame, summed].concat()), [0; 32]);
        }
    }
}
