//! Small inputs of mending, without chance: every single wrong byte of a short word,
//! every place of the longest, every number of bytes that differ, every length, and
//! what looks like a code word or like a single wrong byte and is none.

use super::correction::about_the_longest;
use super::mending::{change_at_root, wrong_in_front, Word};
use super::number;
use crate::case::{Case, Operation};
use crate::correction::{check_bytes_of, CHECK_BYTES, CORRECTION, HEADER, LONGEST_WORD};
use crate::frames::{frame_of, Format};

/// All of them. The largest groups stand last, since most mistakes show before.
pub fn mending_inputs() -> Vec<Case> {
    let groups = [
        words_of_every_length,
        numbers_of_different_bytes,
        words_seen_at_one_root,
        pairs_of_wrong_bytes,
        headers,
        words_wrong_in_front,
        words_cut_or_longer,
        length_bytes,
        places_of_the_longest_word,
        single_wrong_bytes,
        proposals_with_a_wrong_bit,
    ];
    groups.into_iter().flat_map(|group| group()).collect()
}

// One case of each call. What is lent is full of a byte that no result is full of.

fn take(format: Format, proposed: &[u8], received: &[u8]) -> Case {
    let (proposed, received) = (proposed.to_vec(), received.to_vec());
    let arguments = vec![number(format as u8), proposed.into(), received.into()];
    Case::new(Operation::TakeProposal, arguments)
}

fn propose(format: Format, received: &[u8], out: usize) -> Case {
    let (received, out) = (received.to_vec(), vec![0xDD; out]);
    let arguments = vec![number(format as u8), received.into(), out.into()];
    Case::new(Operation::ProposeOne, arguments)
}

/// Into an output that has a byte more than the result needs.
fn propose_with_room(format: Format, word: &Word) -> Case {
    propose(format, &received(word), word.bytes.len() + 1)
}

/// Bytes that all differ from their neighbours.
pub fn bytes(count: usize) -> Vec<u8> {
    (0..count).map(|place| (13 * place + 7) as u8).collect()
}

pub fn frame(format: Format, n: usize) -> Vec<u8> {
    frame_of(format, &bytes(n)).expect("the length is allowed")
}

/// A frame with its check bytes; with some bytes if it is too long to have any.
pub fn word(format: Format, n: usize) -> Word {
    let frame = frame(format, n);
    let check_bytes = check_bytes_of(&frame).unwrap_or_else(|_| bytes(CHECK_BYTES));
    Word::new(&frame, &check_bytes)
}

pub fn received(word: &Word) -> Vec<u8> {
    word.received_with(&HEADER.to_le_bytes())
}

/// The same word with some bytes changed.
pub fn changed(word: &Word, places: impl IntoIterator<Item = usize>, by: u8) -> Word {
    let mut changed = word.clone();
    for place in places {
        changed.bytes[place] ^= by;
    }
    changed
}

/// The shortest word and the longest.
pub fn both_ends(format: Format) -> [Word; 2] {
    let [_, longest, _] = about_the_longest(format);
    [Format::SHORTEST, longest].map(|n| word(format, n))
}

// ------------------------------------------------------------------- the groups

/// From none to all: the first bytes or the last ones, of which the length byte is
/// the first or the last.
fn numbers_of_different_bytes() -> Vec<Case> {
    let mut cases = Vec::new();
    for format in Format::ALL {
        for word in both_ends(format) {
            let size = word.bytes.len();
            for count in 0..=size {
                let first = changed(&word, 0..count, 0xFF);
                let last = changed(&word, size - count..size, 0x01);
                cases.push(take(format, &word.bytes, &received(&first)));
                cases.push(take(format, &word.bytes, &received(&last)));
            }
        }
    }
    cases
}

/// Every bit of a proposal, with the same wrong bit received and without it; and the
/// proposal as it should be, with that bit received wrong.
fn proposals_with_a_wrong_bit() -> Vec<Case> {
    let mut cases = Vec::new();
    for format in Format::ALL {
        for word in both_ends(format) {
            for place in 0..word.bytes.len() {
                for bit in 0..8 {
                    let wrong = changed(&word, [place], 1 << bit);
                    cases.push(take(format, &wrong.bytes, &received(&wrong)));
                    cases.push(take(format, &wrong.bytes, &received(&word)));
                    cases.push(take(format, &word.bytes, &received(&wrong)));
                }
            }
        }
    }
    cases
}

/// Every wrong byte of the shortest word. A wrong length byte is received before
/// enough bytes for any L, too.
fn single_wrong_bytes() -> Vec<Case> {
    let mut cases = Vec::new();
    for format in Format::ALL {
        let word = word(format, Format::SHORTEST);
        for by in 1..=0xFF {
            for place in 0..word.bytes.len() {
                cases.push(propose_with_room(format, &changed(&word, [place], by)));
            }
            let mut longer = received(&changed(&word, [0], by));
            longer.resize(LONGEST_WORD + CORRECTION, 0);
            cases.push(propose(format, &longer, longer.len()));
        }
    }
    cases
}

/// No wrong byte, and one in every place.
fn places_of_the_longest_word() -> Vec<Case> {
    let mut cases = Vec::new();
    for format in Format::ALL {
        let [_, word] = both_ends(format);
        cases.push(propose_with_room(format, &word));
        for place in 0..word.bytes.len() {
            for by in [0x01, 0x80, 0xFF, place as u8] {
                cases.push(propose_with_room(format, &changed(&word, [place], by)));
            }
        }
    }
    cases
}

/// Two wrong bytes in every two places of the shortest word, and in neighbours of
/// the longest.
fn pairs_of_wrong_bytes() -> Vec<Case> {
    let mut cases = Vec::new();
    let mut both_wrong = |format, word: &Word, one, other| {
        let wrong = changed(word, [one, other], 0x5A);
        cases.push(propose_with_room(format, &wrong));
    };
    for format in Format::ALL {
        let [shortest, longest] = both_ends(format);
        for other in 0..shortest.bytes.len() {
            for one in 0..other {
                both_wrong(format, &shortest, one, other);
            }
        }
        for other in 1..longest.bytes.len() {
            both_wrong(format, &longest, other - 1, other);
        }
    }
    cases
}

/// Check bytes of a frame with any other length byte, and of one that has a byte in
/// any place of its fill: nothing that may be mended is wrong. A further wrong byte
/// makes it no better. As a proposal it is no code word.
fn words_wrong_in_front() -> Vec<Case> {
    let mut cases = Vec::new();
    let mut push = |format, wrong: &Word| {
        cases.push(propose_with_room(format, wrong));
        cases.push(propose_with_room(format, &changed(wrong, [5], 0x11)));
        cases.push(take(format, &wrong.bytes, &received(wrong)));
    };
    for format in Format::ALL {
        let [_, longest, _] = about_the_longest(format);
        for n in [Format::SHORTEST, longest] {
            let frame = frame(format, n);
            let fill = LONGEST_WORD - frame.len();
            for other in (0..=0xFF).filter(|&other| other != frame[0]) {
                push(format, &wrong_in_front(&frame, fill, other));
            }
            for place in 0..fill {
                push(format, &wrong_in_front(&frame, place, 0x01));
            }
        }
    }
    cases
}

/// Words of which one of the 32 values is not what it should be: no code word, and
/// no single wrong byte.
fn words_seen_at_one_root() -> Vec<Case> {
    let mut cases = Vec::new();
    for format in Format::ALL {
        for word in both_ends(format) {
            let places = [1, word.frame - 1, word.frame, word.bytes.len() - 1];
            for root in 0..CHECK_BYTES {
                for often in [0x01, 0xA5] {
                    let mut wrong = word.clone();
                    change_at_root(&mut wrong, root, often);
                    cases.push(take(format, &wrong.bytes, &received(&wrong)));
                    cases.push(take(format, &wrong.bytes, &received(&word)));
                    cases.push(propose_with_room(format, &wrong));
                    for place in places {
                        cases.push(propose_with_room(format, &changed(&wrong, [place], 0x40)));
                    }
                }
            }
        }
    }
    cases
}

/// Every value of each byte of the header: where nothing else is wrong, where 16
/// bytes are, and where one is to be mended.
fn headers() -> Vec<Case> {
    let mut cases = Vec::new();
    for format in Format::ALL {
        let word = word(format, Format::SHORTEST);
        let wrong = changed(&word, 20..36, 0x08);
        let single = changed(&word, [20], 0x08);
        let [low, high] = HEADER.to_le_bytes();
        for value in 0..=0xFF {
            for header in [[value, high], [low, value], [value, value]] {
                cases.push(take(format, &word.bytes, &word.received_with(&header)));
                cases.push(take(format, &word.bytes, &wrong.received_with(&header)));
                cases.push(propose(format, &single.received_with(&header), 47));
            }
        }
    }
    cases
}

/// Every length byte, before so many bytes that mean nothing: none, too few for any
/// frame, enough for all that are not refused for their size, enough for every one.
fn length_bytes() -> Vec<Case> {
    let mut cases = Vec::new();
    let lengths_behind = [0, 8, LONGEST_WORD + CORRECTION - 1, 399];
    for format in Format::ALL {
        for length in 0..=0xFF {
            let [alone, few, some, many] =
                lengths_behind.map(|behind| [vec![length], bytes(behind)].concat());
            for received in [&alone, &few, &some, &many] {
                cases.push(propose(format, received, 400));
                cases.push(propose(format, received, 0));
                // The length byte of what was received is not asked.
                let other = [&[10][..], &received[1..]].concat();
                cases.push(take(format, received, &[]));
                cases.push(take(format, received, &many));
                cases.push(take(format, &many, received));
                cases.push(take(format, &many, &other));
            }
        }
    }
    cases
}

/// A word of every length that a frame has, with one wrong byte in turn: just enough
/// room and bytes, and one byte less of each. Its frame may be unsound.
fn words_of_every_length() -> Vec<Case> {
    let mut cases = Vec::new();
    for format in Format::ALL {
        for n in Format::SHORTEST..=format.longest() {
            let mut word = word(format, n);
            if n.is_multiple_of(3) && word.frame <= LONGEST_WORD {
                word.bytes[n] ^= 0x20;
                let unsound = &word.bytes[..word.frame];
                let check_bytes = check_bytes_of(unsound).expect("it has some");
                word = Word::new(unsound, &check_bytes);
            }
            let size = word.bytes.len();
            let wrong = changed(&word, [1 + 7 * n % (size - 1)], 0x33);
            let received = received(&wrong);
            let short = &received[..size + 1];
            cases.push(propose(format, &received, size));
            cases.push(propose(format, &received, size - 1));
            cases.push(propose(format, short, size));
            cases.push(take(format, &word.bytes, &received));
            cases.push(take(format, &word.bytes, short));
            cases.push(take(format, &word.bytes[..size - 1], &received));
        }
    }
    cases
}

/// The shortest words, those of frames about 223 bytes and of the longest: right or
/// wrong, cut in every way of interest or with bytes behind, into every room of
/// interest.
fn words_cut_or_longer() -> Vec<Case> {
    let mut cases = Vec::new();
    for format in Format::ALL {
        let mut lengths = about_the_longest(format).to_vec();
        lengths.extend([Format::SHORTEST, Format::SHORTEST + 1, format.longest()]);
        for n in lengths {
            let word = word(format, n);
            let size = word.bytes.len();
            let single = changed(&word, [size - 1], 0x04);
            let many = changed(&word, 1..18, 0x02);
            for heard in [&word, &single, &many] {
                for received in cuts(&received(heard), word.frame) {
                    for room in [0, 1, CHECK_BYTES, size - 1, size, size + 1, size + 2, 400] {
                        cases.push(propose(format, &received, room));
                    }
                    for proposed in [&word, &single] {
                        for proposed in cuts(&proposed.bytes, word.frame) {
                            cases.push(take(format, &proposed, &received));
                        }
                    }
                }
            }
        }
    }
    cases
}

/// Cut or made longer: what is left is nothing, the length byte, the frame or more.
pub fn cuts(bytes: &[u8], frame: usize) -> Vec<Vec<u8>> {
    let size = bytes.len();
    let lengths = [0, 1, frame, size - 2, size - 1, size, size + 1, size + 34];
    let cut = |length| {
        let mut cut = bytes.to_vec();
        cut.resize(length, 0xEE);
        cut
    };
    lengths.into_iter().map(cut).collect()
}
