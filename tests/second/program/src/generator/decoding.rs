//! Cases of the proposer of up to 16 wrong bytes, one call each.

use super::bytes::{any_length, formats};
use super::mending::{
    another, any_frame, any_wrong_in_front, change_at_any_root, code_word, cut_or_longer, garbage,
    in_any_order, output_for_proposal, received, times_factor, wrong_in_front, Word,
};
use super::number;
use crate::case::Argument;
use crate::correction::{roots, times, CHECK_BYTES, LONGEST_WORD};
use crate::random::Random;

// ------------------------------------------------------------------ the damage

/// The places of a word but for the length byte's, in which bytes are to be wrong:
/// mostly in any order. Else edges, the frame or the check bytes come first, or they
/// are neighbours, the first place that of the last.
fn places(random: &mut Random, word: &Word) -> Vec<usize> {
    let size = word.bytes.len();
    let mut neighbours: Vec<usize> = (1..size).collect();
    neighbours.rotate_left(random.below(size - 1));
    let kind = random.below(8);
    if kind == 0 {
        return neighbours;
    }
    let mut places = in_any_order(random, neighbours);
    match kind {
        1 => places.sort_by_key(|&place| place >= word.frame),
        2 => places.sort_by_key(|&place| place < word.frame),
        3 => {
            let edge = random.pick(&[1, word.frame - 1, word.frame, size - 1]);
            places.sort_by_key(|&place| place != edge);
        }
        _ => {}
    }
    places
}

/// So many wrong bytes, each in a place of its own, the length byte none of them. Now
/// and then all are off by the same.
pub fn damage(random: &mut Random, word: &mut Word, count: usize) {
    let by = another(random, 0);
    let same = random.once_in(8);
    for place in places(random, word).into_iter().take(count) {
        let byte = word.bytes[place];
        word.bytes[place] = if same {
            byte ^ by
        } else {
            another(random, byte)
        };
    }
}

/// Bytes that are 0 at so many roots, from this one on: one byte more than roots, and
/// none of them is 0. Added to neighbours in a word they are wrong bytes that so many
/// of the 32 values do not see.
pub fn unseen_at(first: usize, count: usize) -> Vec<u8> {
    let roots = roots().into_iter().skip(first).take(count);
    roots.fold(vec![1], times_factor)
}

/// Adds bytes from a place on, so many times.
pub fn add_at(word: &mut Word, place: usize, bytes: &[u8], often: u8) {
    for (byte, &added) in word.bytes[place..].iter_mut().zip(bytes) {
        *byte ^= times(added, often);
    }
}

/// Neighbours that some of the values do not see, often as many as can be mended.
fn add_unseen(random: &mut Random, word: &mut Word) {
    let count = match random.below(3) {
        0 => 15,
        1 => 1 + random.below(15),
        _ => 1 + random.below(CHECK_BYTES - 1),
    };
    let bytes = unseen_at(random.below(CHECK_BYTES + 1 - count), count);
    let place = 1 + random.below(word.bytes.len() - bytes.len());
    let often = another(random, 0);
    add_at(word, place, &bytes, often);
}

/// Takes some check bytes from a code word that differs in one byte of fill or frame,
/// and so in all of the check bytes: 33 bytes lie between the two. With over 16 of
/// them the other one is near, and is to be proposed if its byte is one of the frame
/// but not the length byte.
fn go_to_another(random: &mut Random, word: &mut Word) {
    let fill = LONGEST_WORD - word.frame;
    let place = random.below(LONGEST_WORD);
    let now = if place < fill {
        0
    } else {
        word.bytes[place - fill]
    };
    let frame = &word.bytes[..word.frame];
    let other = wrong_in_front(frame, place, another(random, now));
    let count = match random.below(3) {
        0 => 16,
        1 => 17,
        _ => random.below(CHECK_BYTES + 1),
    };
    let check_bytes = (word.frame..word.bytes.len()).collect();
    for place in in_any_order(random, check_bytes).into_iter().take(count) {
        word.bytes[place] = other.bytes[place];
    }
}

// ------------------------------------------------------------------- the calls

/// How many bytes are wrong: mostly as many as can be mended and more than one.
fn any_count(random: &mut Random) -> usize {
    match random.below(16) {
        0 => 0,
        1 => 1,
        2 => 2,
        3 => 15,
        4..=5 => 16,
        6 => 17,
        7 => 17 + random.below(4),
        _ => 3 + random.below(14),
    }
}

/// What is received of a frame: some wrong bytes, now and then with one in the fill or
/// a wrong length byte among them, or with a value that no wrong byte explains.
fn heard(random: &mut Random, frame: &[u8]) -> Word {
    let mut word = match random.below(8) {
        0 => any_wrong_in_front(random, frame),
        _ => code_word(random, frame),
    };
    match random.below(12) {
        0 if word.frame <= LONGEST_WORD => go_to_another(random, &mut word),
        1 => add_unseen(random, &mut word),
        kind => {
            let count = any_count(random);
            damage(random, &mut word, count);
            if kind == 2 {
                change_at_any_root(random, &mut word);
            }
        }
    }
    word
}

pub fn propose(random: &mut Random) -> Vec<Argument> {
    let (format, made_as) = formats(random);
    let frame = any_frame(random, made_as);
    let word = heard(random, &frame);
    let mut received = received(random, &word);
    match random.below(32) {
        0 => received[0] = any_length(random),
        // Its length byte alone differs from a word of zeros, which is a code word.
        1 => received[1..].fill(0),
        _ => {}
    }
    if random.once_in(3) {
        cut_or_longer(random, &mut received);
    }
    if random.once_in(24) {
        received = garbage(random);
    }
    let out = output_for_proposal(random, format, &received);
    vec![number(format as u8), received.into(), out.into()]
}
