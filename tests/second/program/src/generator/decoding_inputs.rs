//! Small inputs of the proposer of up to 16 wrong bytes, without chance: every place
//! and every two places of short words, every number of wrong bytes, wrong bytes that
//! few of the values see, and what only seems to be near a code word.

use super::correction::about_the_longest;
use super::decoding::{add_at, unseen_at};
use super::mending::{change_at_root, wrong_in_front, Word};
use super::mending_inputs::{both_ends, bytes, changed, cuts, frame, received, word};
use super::number;
use crate::case::{Case, Operation};
use crate::correction::{CHECK_BYTES, CORRECTION, HEADER, LONGEST_WORD};
use crate::frames::Format;
use crate::mending::LONGEST;

/// All of them. The largest groups stand last, since most mistakes show before.
pub fn decoding_inputs() -> Vec<Case> {
    let groups = [
        numbers_of_wrong_bytes,
        words_of_every_length,
        wrong_length_bytes,
        wrong_bytes_in_the_fill,
        ways_to_another_word,
        words_seen_at_one_root,
        wrong_bytes_unseen_at_some_roots,
        wrong_bytes_in_step,
        neighbours,
        headers,
        length_bytes,
        words_cut_or_longer,
        single_wrong_bytes,
        pairs_of_wrong_bytes,
    ];
    groups.into_iter().flat_map(|group| group()).collect()
}

/// One case. What is lent is full of a byte that no result is full of.
fn propose(format: Format, received: &[u8], out: usize) -> Case {
    let (received, out) = (received.to_vec(), vec![0xDD; out]);
    let arguments = vec![number(format as u8), received.into(), out.into()];
    Case::new(Operation::Propose, arguments)
}

/// Into an output that has a byte more than the result needs.
fn propose_with_room(format: Format, word: &Word) -> Case {
    propose(format, &received(word), word.bytes.len() + 1)
}

/// So many of the last bytes.
fn last(word: &Word, count: usize) -> std::ops::Range<usize> {
    word.bytes.len() - count..word.bytes.len()
}

/// Each format, with its shortest word and its longest.
fn ends_of_both_formats() -> Vec<(Format, Word)> {
    let ends = |format| both_ends(format).map(|word| (format, word));
    Format::ALL.into_iter().flat_map(ends).collect()
}

/// The words of frames that have 15 to 30 bytes.
fn short_words(format: Format) -> Vec<Word> {
    let words = (Format::SHORTEST..=30).map(|n| word(format, n));
    words
        .filter(|word| (15..=30).contains(&word.frame))
        .collect()
}

// ------------------------------------------------------------------- the groups

/// From none to 40: the first bytes but the length byte, the last ones, or in step.
fn numbers_of_wrong_bytes() -> Vec<Case> {
    let mut cases = Vec::new();
    for (format, word) in ends_of_both_formats() {
        let size = word.bytes.len();
        for count in 0..=40 {
            let in_step = (0..count).map(|index| 1 + index * (size - 1) / 40);
            cases.push(propose_with_room(format, &changed(&word, 1..=count, 0xFF)));
            cases.push(propose_with_room(
                format,
                &changed(&word, last(&word, count), 0x01),
            ));
            cases.push(propose_with_room(format, &changed(&word, in_step, 0x5A)));
        }
    }
    cases
}

/// A word of every length that a frame has, with 1 to 17 wrong bytes in turn: just
/// enough room and bytes, and one byte less of each.
fn words_of_every_length() -> Vec<Case> {
    let mut cases = Vec::new();
    for format in Format::ALL {
        for n in Format::SHORTEST..=format.longest() {
            let word = word(format, n);
            let size = word.bytes.len();
            let first = 1 + 7 * n % (size - 17);
            let wrong = changed(&word, first..=first + n % 17, 0x33);
            let received = received(&wrong);
            cases.push(propose(format, &received, size));
            cases.push(propose(format, &received, size - 1));
            cases.push(propose(format, &received[..size + 1], size));
        }
    }
    cases
}

/// Check bytes of a frame with another length byte: that one is wrong, alone or with
/// 1 to 17 others. The word of zeros is one with the length byte 0.
fn wrong_length_bytes() -> Vec<Case> {
    let mut cases = Vec::new();
    let mut push = |format, wrong: &Word| {
        for count in 0..=17 {
            cases.push(propose_with_room(format, &changed(wrong, 1..=count, 0x21)));
            cases.push(propose_with_room(
                format,
                &changed(wrong, last(wrong, count), 0x84),
            ));
        }
    };
    for (format, right) in ends_of_both_formats() {
        let frame = &right.bytes[..right.frame];
        let fill = LONGEST_WORD - frame.len();
        for by in [0x01, 0x80, 0xFF, frame[0]] {
            push(format, &wrong_in_front(frame, fill, frame[0] ^ by));
        }
        let mut zeros = right.clone();
        zeros.bytes[1..].fill(0);
        push(format, &zeros);
    }
    cases
}

/// Check bytes of a frame that has a byte in any place of its fill: that one is not
/// sent and cannot be mended, alone or with others.
fn wrong_bytes_in_the_fill() -> Vec<Case> {
    let mut cases = Vec::new();
    for format in Format::ALL {
        let [almost, _, _] = about_the_longest(format);
        for n in [Format::SHORTEST, almost] {
            let frame = frame(format, n);
            for place in 0..LONGEST_WORD - frame.len() {
                let wrong = wrong_in_front(&frame, place, 0x01);
                for count in [0, 1, 14, 15, 16] {
                    let places = (0..count).map(|index| 2 + 2 * index);
                    cases.push(propose_with_room(format, &changed(&wrong, places, 0x40)));
                }
            }
        }
    }
    cases
}

/// Two code words that differ in one byte of fill or frame differ in all of the check
/// bytes, too. Here are the steps from one to the other, a check byte at a time: up to
/// 16 bytes from the first, then up to 16 from the other. The byte in front is still
/// that of the first, or already that of the other if it is sent and no length byte.
fn ways_to_another_word() -> Vec<Case> {
    let mut cases = Vec::new();
    for (format, one) in ends_of_both_formats() {
        let frame = &one.bytes[..one.frame];
        let fill = LONGEST_WORD - frame.len();
        // The fill's first byte or its last, if there is one, then those of the frame.
        let mut places = vec![0, fill.saturating_sub(1), fill, fill + 1, LONGEST_WORD - 1];
        places.dedup();
        for place in places {
            let in_frame = place.checked_sub(fill);
            let byte = in_frame.map_or(0, |place| frame[place]);
            let other = wrong_in_front(frame, place, byte ^ 0x6B);
            let front = in_frame.filter(|&place| place > 0);
            for step in 0..=CHECK_BYTES {
                let check_bytes = one.frame..one.frame + step;
                let mut on_the_way = one.clone();
                on_the_way.bytes[check_bytes.clone()].copy_from_slice(&other.bytes[check_bytes]);
                cases.push(propose_with_room(format, &on_the_way));
                if let Some(place) = front {
                    cases.push(propose_with_room(
                        format,
                        &changed(&on_the_way, [place], 0x6B),
                    ));
                }
            }
        }
    }
    cases
}

/// Words of which one of the 32 values is not what it should be, with and without
/// wrong bytes: no code word is near.
fn words_seen_at_one_root() -> Vec<Case> {
    let mut cases = Vec::new();
    for (format, word) in ends_of_both_formats() {
        for root in 0..CHECK_BYTES {
            for count in [0, 1, 8, 15, 16] {
                let mut wrong = changed(&word, 3..3 + count, 0x40);
                change_at_root(&mut wrong, root, 0xA5);
                cases.push(propose_with_room(format, &wrong));
            }
        }
    }
    cases
}

/// Wrong bytes that some of the values do not see: from 2 bytes and one value to 32
/// bytes and all values but one, from each value on. A way to the wrong bytes that
/// divides by a value, or by what it makes of some of them, meets 0 here.
fn wrong_bytes_unseen_at_some_roots() -> Vec<Case> {
    let mut cases = Vec::new();
    for (format, word) in ends_of_both_formats() {
        for count in 1..CHECK_BYTES {
            for first in 0..=CHECK_BYTES - count {
                let added = unseen_at(first, count);
                let place = 1 + 5 * first % (word.bytes.len() - added.len());
                let mut wrong = word.clone();
                add_at(&mut wrong, place, &added, 0x1D);
                cases.push(propose_with_room(format, &wrong));
            }
        }
    }
    cases
}

/// Wrong bytes in step that are off by the same, up to 17 of them: where the step goes
/// into 255, the numbers that name the places make powers that cancel out.
fn wrong_bytes_in_step() -> Vec<Case> {
    let mut cases = Vec::new();
    for format in Format::ALL {
        let [_, word] = both_ends(format);
        for step in [3, 5, 15, 17, 51, 85] {
            for first in 1..=step {
                for most in [2, 3, 5, 15, 16, 17] {
                    let places = (first..LONGEST).step_by(step).take(most);
                    cases.push(propose_with_room(format, &changed(&word, places, 0x0F)));
                }
            }
        }
    }
    cases
}

/// 16 neighbours from any place on, and 17.
fn neighbours() -> Vec<Case> {
    let mut cases = Vec::new();
    for (format, word) in ends_of_both_formats() {
        for count in [16, 17] {
            for first in 1..=word.bytes.len() - count {
                let wrong = changed(&word, first..first + count, 0x3C);
                cases.push(propose_with_room(format, &wrong));
            }
        }
    }
    cases
}

/// Every value of each byte of the header, beside as many wrong bytes as can be
/// mended.
fn headers() -> Vec<Case> {
    let mut cases = Vec::new();
    let [low, high] = HEADER.to_le_bytes();
    for format in Format::ALL {
        let word = word(format, Format::SHORTEST);
        let wrong = changed(&word, 20..36, 0x08);
        for value in 0..=0xFF {
            for header in [[value, high], [low, value], [value, value]] {
                cases.push(propose(format, &wrong.received_with(&header), 47));
            }
        }
    }
    cases
}

/// Every length byte, before so many bytes that mean nothing: none, too few for any
/// frame, enough for all that are not refused for their size, enough for every one.
fn length_bytes() -> Vec<Case> {
    let mut cases = Vec::new();
    for format in Format::ALL {
        for length in 0..=0xFF {
            for behind in [0, 8, LONGEST_WORD + CORRECTION - 1, 399] {
                let received = [vec![length], bytes(behind)].concat();
                cases.push(propose(format, &received, 400));
                cases.push(propose(format, &received, 0));
            }
        }
    }
    cases
}

/// The shortest words, those of frames about 223 bytes and of the longest: right, with
/// 16 wrong bytes or with 17, cut in every way of interest or with bytes behind, into
/// every room of interest.
fn words_cut_or_longer() -> Vec<Case> {
    let mut cases = Vec::new();
    for format in Format::ALL {
        let mut lengths = about_the_longest(format).to_vec();
        lengths.extend([Format::SHORTEST, Format::SHORTEST + 1, format.longest()]);
        for n in lengths {
            let word = word(format, n);
            let size = word.bytes.len();
            for count in [0, 16, 17] {
                let wrong = changed(&word, last(&word, count), 0x02);
                for received in cuts(&received(&wrong), word.frame) {
                    for room in [0, 1, CHECK_BYTES, size - 1, size, size + 1, size + 2, 400] {
                        cases.push(propose(format, &received, room));
                    }
                }
            }
        }
    }
    cases
}

/// No wrong byte and one in every place, of short words and of the longest.
fn single_wrong_bytes() -> Vec<Case> {
    let mut cases = Vec::new();
    for format in Format::ALL {
        let [_, longest] = both_ends(format);
        for word in short_words(format).into_iter().chain([longest]) {
            cases.push(propose_with_room(format, &word));
            for place in 0..word.bytes.len() {
                for by in [0x01, 0x80, 0xFF, 1 + place as u8 % 0x7F] {
                    cases.push(propose_with_room(format, &changed(&word, [place], by)));
                }
            }
        }
    }
    cases
}

/// Every two places of short words, off by the same in every other pair.
fn pairs_of_wrong_bytes() -> Vec<Case> {
    let mut cases = Vec::new();
    for format in Format::ALL {
        for word in short_words(format) {
            for other in 0..word.bytes.len() {
                for one in 0..other {
                    let by = if (one + other) % 2 == 0 { 0x5A } else { 0xC3 };
                    let wrong = changed(&changed(&word, [one], 0x5A), [other], by);
                    cases.push(propose_with_room(format, &wrong));
                }
            }
        }
    }
    cases
}
