//! Mending (12/14): a proposal of the corrected frame and check bytes is judged,
//! and one proposer mends a single wrong byte. The one that mends up to 16 of them
//! is in `decoding.rs`.
//!
//! Nothing is divided by the generator here, and no check byte is worked out
//! afresh. A word is of the code when it is 0 at each of the 32 roots of 11/14.
//! One wrong byte adds to each of these 32 values the same number, times the root
//! to the power that the byte's place counts. So each place is asked in turn
//! whether there is such a number.

use std::sync::OnceLock;

use crate::answer::Refusal;
use crate::chips::put;
use crate::correction::{
    roots, times, to_the, CHECK_BYTES, CORRECTION, HEADER_BYTES, LONGEST_WORD,
};
use crate::frames::Format;

/// The most bytes in which a proposal may differ from what was received.
pub const MOST_DIFFERENT: usize = 16;

/// The bytes of the longest word with its check bytes: 255. To that power every
/// root is 1 again, as is any byte but 0.
pub const LONGEST: usize = LONGEST_WORD + CHECK_BYTES;

/// For each root its powers, from 0 to that of the first byte of the longest word.
fn powers_of_roots() -> &'static Vec<Vec<u8>> {
    static POWERS: OnceLock<Vec<Vec<u8>>> = OnceLock::new();
    let of_root = |root| (0..LONGEST).map(|power| to_the(root, power)).collect();
    POWERS.get_or_init(|| roots().into_iter().map(of_root).collect())
}

/// The values of a word at the 32 roots: its last byte counts the power 0. The fill
/// stands before its first byte and adds nothing.
pub fn values_of(word: &[u8]) -> Vec<u8> {
    let value = |powers: &Vec<u8>| {
        let summands = word.iter().rev().zip(powers);
        summands.fold(0, |sum, (&byte, &power)| sum ^ times(byte, power))
    };
    powers_of_roots().iter().map(value).collect()
}

/// A word with its check bytes, of at most 255 bytes, is a code word of 11/14.
pub fn is_code_word(word: &[u8]) -> bool {
    values_of(word).iter().all(|&value| value == 0)
}

/// By how much the byte that counts this power is off, if all 32 values come from
/// that byte alone. Nothing if they do not, or if all are 0.
fn off_by(values: &[u8], power: usize) -> Option<u8> {
    let roots = powers_of_roots();
    // The first root to this power and to the rest of 255 give 1 together.
    let back = roots[0][(LONGEST - power) % LONGEST];
    let off = times(values[0], back);
    let comes_from_it = |(powers, &value): (&Vec<u8>, &u8)| times(off, powers[power]) == value;
    let all = roots.iter().zip(values).all(comes_from_it);
    Some(off).filter(|&off| off != 0 && all)
}

/// The single wrong byte of a word that has so many bytes and these values: its
/// place, and by how much it is off. The length byte is none that is looked for
/// (12/14). No two places agree with the same values, since two code words differ
/// in at least 33 bytes.
pub fn single_wrong(values: &[u8], size: usize) -> Option<(usize, u8)> {
    let mut places = 1..size;
    places.find_map(|place| off_by(values, size - 1 - place).map(|off| (place, off)))
}

/// The received word with its single wrong byte mended, else as it is.
fn proposal_for(word: &[u8]) -> Vec<u8> {
    let mut proposal = word.to_vec();
    if let Some((place, off)) = single_wrong(&values_of(word), word.len()) {
        proposal[place] ^= off;
    }
    proposal
}

// ------------------------------------------------------------------- the calls

/// The size of the frame whose L stands first, block checks not looked at. Order:
/// 1 if there is no byte, 2, 23.
pub fn frame_size(format: Format, bytes: &[u8]) -> Result<usize, Refusal> {
    let &length = bytes.first().ok_or(Refusal::Ends)?;
    let size = format.sizes(length)?.frame;
    if size > LONGEST_WORD {
        return Err(Refusal::TooLongForCorrection);
    }
    Ok(size)
}

/// What was received of a frame of this size and its check bytes, without the
/// header between them; 1 if the bytes are too few.
pub fn received_word(received: &[u8], frame: usize) -> Result<Vec<u8>, Refusal> {
    let all = received.get(..frame + CORRECTION).ok_or(Refusal::Ends)?;
    Ok([&all[..frame], &all[frame + HEADER_BYTES..]].concat())
}

/// In how many bytes two words of one length differ.
pub fn different(one: &[u8], other: &[u8]) -> usize {
    let pairs = one.iter().zip(other);
    pairs.filter(|(one, other)| one != other).count()
}

/// Judging a proposal. Order: 1 if it is empty, 2, 23, 1, 25, 26. Answers in how
/// many bytes it differs from what was received.
pub fn take(format: Format, proposed: &[u8], received: &[u8]) -> Result<usize, Refusal> {
    let frame = frame_size(format, proposed)?;
    let proposal = proposed.get(..frame + CHECK_BYTES).ok_or(Refusal::Ends)?;
    let word = received_word(received, frame)?;
    if !is_code_word(proposal) {
        return Err(Refusal::NotOfTheCode);
    }
    let different = different(proposal, &word);
    if different > MOST_DIFFERENT {
        return Err(Refusal::TooManyDiffer);
    }
    Ok(different)
}

/// Proposing what was received with a single wrong byte mended. Order: 1 if nothing
/// was received, 2, 23, 1, 4. Answers the bytes written.
///
/// Since the length byte stays, the L of the proposal is the received one.
pub fn propose_one(format: Format, received: &[u8], out: &mut [u8]) -> Result<usize, Refusal> {
    let frame = frame_size(format, received)?;
    let word = received_word(received, frame)?;
    put(&proposal_for(&word), out)
}
