//! Cases of mending (12/14), one call each.

use std::sync::OnceLock;

use super::bytes::{any_length, formats};
use super::correction::about_the_longest;
use super::{number, output_for};
use crate::case::Argument;
use crate::correction::{check_bytes_of, roots, times, CHECK_BYTES, HEADER, LONGEST_WORD};
use crate::frames::{frame_of, Format};
use crate::random::Random;

/// A frame with its check bytes: what a proposal should be.
#[derive(Clone)]
pub struct Word {
    pub bytes: Vec<u8>,
    /// How many of them are the frame.
    pub frame: usize,
}

impl Word {
    pub fn new(frame: &[u8], check_bytes: &[u8]) -> Word {
        Word {
            bytes: [frame, check_bytes].concat(),
            frame: frame.len(),
        }
    }

    /// As it is received: with a header between frame and check bytes.
    pub fn received_with(&self, header: &[u8]) -> Vec<u8> {
        let (frame, check_bytes) = self.bytes.split_at(self.frame);
        [frame, header, check_bytes].concat()
    }
}

// ------------------------------------------------------------------- the words

/// Any byte but this one, often with a single bit turned.
pub fn another(random: &mut Random, byte: u8) -> u8 {
    if random.once_in(2) {
        byte ^ (1 << random.below(8))
    } else {
        byte ^ (1 + random.below(255)) as u8
    }
}

/// The length of a content: mostly of a frame that gets check bytes, and often at an
/// edge.
fn any_content_length(random: &mut Random, format: Format) -> usize {
    let [almost, longest, too_long] = about_the_longest(format);
    match random.below(16) {
        0..=2 => longest,
        3 => almost,
        4 => too_long,
        5 => format.longest() - random.below(format.longest() - longest),
        6..=8 => Format::SHORTEST + random.below(3),
        _ => Format::SHORTEST + random.below(almost - Format::SHORTEST),
    }
}

/// A frame, mostly a sound one. Of some only the length byte means something:
/// nobody looks at block checks here.
pub fn any_frame(random: &mut Random, format: Format) -> Vec<u8> {
    let length = any_content_length(random, format);
    let content = random.bytes(length);
    let mut frame = frame_of(format, &content).expect("the length is allowed");
    let size = frame.len();
    match random.below(10) {
        0 => {
            let bytes = random.bytes(size - 1);
            frame[1..].copy_from_slice(&bytes);
        }
        1 => {
            let place = 1 + random.below(size - 1);
            frame[place] = another(random, frame[place]);
        }
        2 => frame[1..].fill(0),
        _ => {}
    }
    frame
}

/// The frame with its check bytes; with any bytes if it is too long to have some.
pub fn code_word(random: &mut Random, frame: &[u8]) -> Word {
    let check_bytes = check_bytes_of(frame).unwrap_or_else(|_| random.bytes(CHECK_BYTES));
    Word::new(frame, &check_bytes)
}

/// Check bytes of a frame before which one byte of the fill is another, or of which
/// the length byte is: so they are not its own, and no byte of the word that may be
/// mended is to blame. The place counts from the fill's first byte, and the length
/// byte stands behind the fill.
pub fn wrong_in_front(frame: &[u8], place: usize, byte: u8) -> Word {
    let mut filled = vec![0; LONGEST_WORD - frame.len()];
    filled.extend(frame);
    filled[place] = byte;
    let check_bytes = check_bytes_of(&filled).expect("223 bytes are not too many");
    Word::new(frame, &check_bytes)
}

pub fn any_wrong_in_front(random: &mut Random, frame: &[u8]) -> Word {
    if frame.len() > LONGEST_WORD {
        return code_word(random, frame);
    }
    let fill = LONGEST_WORD - frame.len();
    let (place, right) = match random.below(2) {
        0 if fill > 0 => (random.below(fill), 0),
        _ => (fill, frame[0]),
    };
    wrong_in_front(frame, place, another(random, right))
}

/// For each root 32 bytes that are 0 at all the others but not there: what is added
/// to check bytes so that a single one of the 32 values changes. They are the
/// product of the other 31 factors of the generator.
fn seen_at_one_root() -> &'static Vec<Vec<u8>> {
    static PRODUCTS: OnceLock<Vec<Vec<u8>>> = OnceLock::new();
    PRODUCTS.get_or_init(|| {
        let without = |left_out: &u8| {
            let others = roots().into_iter().filter(|root| root != left_out);
            others.fold(vec![1], times_factor)
        };
        roots().iter().map(without).collect()
    })
}

/// A product, highest power first, with one factor more: x less a root.
pub fn times_factor(product: Vec<u8>, root: u8) -> Vec<u8> {
    let mut longer = product.clone();
    longer.push(0);
    for (place, factor) in product.into_iter().enumerate() {
        longer[place + 1] ^= times(factor, root);
    }
    longer
}

/// Changes a word in its check bytes, so that its value at one root is another and
/// all others stay. Often must not be 0.
pub fn change_at_root(word: &mut Word, root: usize, often: u8) {
    let check_bytes = &mut word.bytes[word.frame..];
    for (byte, &of_product) in check_bytes.iter_mut().zip(&seen_at_one_root()[root]) {
        *byte ^= times(of_product, often);
    }
}

/// Often at the first or the last root, where a list of them may be cut.
pub fn change_at_any_root(random: &mut Random, word: &mut Word) {
    let root = match random.below(4) {
        0 => 0,
        1 => CHECK_BYTES - 1,
        _ => random.below(CHECK_BYTES),
    };
    let often = another(random, 0);
    change_at_root(word, root, often);
}

// ------------------------------------------------------------------ the damage

/// The places of a word in any order. In every other case an edge stands first: the
/// length byte, its neighbour, one of those about the header, or the last byte.
fn places(random: &mut Random, word: &Word) -> Vec<usize> {
    let last = word.bytes.len() - 1;
    let mut left: Vec<usize> = (0..=last).collect();
    let mut places = Vec::new();
    if random.once_in(2) {
        let edges = [0, 1, word.frame - 1, word.frame, last];
        places.push(left.remove(random.pick(&edges)));
    }
    places.extend(in_any_order(random, left));
    places
}

pub fn in_any_order(random: &mut Random, mut left: Vec<usize>) -> Vec<usize> {
    let mut places = Vec::new();
    while !left.is_empty() {
        places.push(left.swap_remove(random.below(left.len())));
    }
    places
}

/// So many wrong bytes, each in a place of its own.
fn damage(random: &mut Random, word: &mut Word, count: usize) {
    for place in places(random, word).into_iter().take(count) {
        word.bytes[place] = another(random, word.bytes[place]);
    }
}

/// As it is received: in every other case with a damaged header.
pub fn received(random: &mut Random, word: &Word) -> Vec<u8> {
    let mut header = HEADER.to_le_bytes();
    match random.below(6) {
        0 => header[0] = random.byte(),
        1 => header[1] = random.byte(),
        2 => header = [random.byte(), random.byte()],
        _ => {}
    }
    word.received_with(&header)
}

/// In every other case bytes are missing, or there are more.
pub fn cut_or_longer(random: &mut Random, bytes: &mut Vec<u8>) {
    let size = bytes.len();
    match random.below(20) {
        0 => bytes.clear(),
        1 => bytes.truncate(1),
        2 | 3 => bytes.truncate(size - 1),
        // Without as many bytes as the header has, or the check bytes.
        4 => bytes.truncate(size - 2),
        5 => bytes.truncate(size - CHECK_BYTES),
        6 => bytes.truncate(random.below(size)),
        7 => bytes.push(random.byte()),
        8 | 9 => {
            let more = random.below(40);
            bytes.extend(random.bytes(more));
        }
        _ => {}
    }
}

/// Bytes that are no word at all, behind any length byte.
pub fn garbage(random: &mut Random) -> Vec<u8> {
    let length = random.below(330);
    let mut bytes = vec![any_length(random)];
    bytes.extend(random.bytes(length));
    bytes
}

// -------------------------------------------------------------------- the calls

/// A proposal that is often not a code word any more, or another one.
fn spoil_proposal(random: &mut Random, proposed: &mut Word, format: Format) {
    let frame = proposed.bytes[..proposed.frame].to_vec();
    match random.below(28) {
        0 | 1 => damage(random, proposed, 1),
        2 => damage(random, proposed, 2),
        3 => proposed.bytes[0] = any_length(random),
        4 | 5 => change_at_any_root(random, proposed),
        6 => *proposed = any_wrong_in_front(random, &frame),
        7 => {
            let other = any_frame(random, format);
            *proposed = code_word(random, &other);
        }
        _ => {}
    }
}

/// How many bytes of what is received differ from what is proposed.
fn any_count(random: &mut Random, most: usize) -> usize {
    match random.below(12) {
        0 => 0,
        1 => 1,
        2 => 2,
        3 => 15,
        4..=6 => 16,
        7..=8 => 17,
        9 => 18,
        10 => random.below(most + 1),
        _ => random.below(33),
    }
}

pub fn take_proposal(random: &mut Random) -> Vec<Argument> {
    let (format, made_as) = formats(random);
    let frame = any_frame(random, made_as);
    let mut proposed = code_word(random, &frame);
    let mut heard = proposed.clone();
    let count = any_count(random, heard.bytes.len());
    damage(random, &mut heard, count);
    spoil_proposal(random, &mut proposed, made_as);

    let mut received = received(random, &heard);
    let mut proposed = proposed.bytes;
    if random.once_in(3) {
        cut_or_longer(random, &mut proposed);
    }
    if random.once_in(3) {
        cut_or_longer(random, &mut received);
    }
    match random.below(24) {
        0 => proposed = garbage(random),
        1 => received = garbage(random),
        _ => {}
    }
    vec![number(format as u8), proposed.into(), received.into()]
}

/// What is received for a proposer: mostly a single wrong byte. Else it is none or
/// more of them, or what looks like a single one and is none.
fn heard_by_a_proposer(random: &mut Random, frame: &[u8]) -> Word {
    let mut word = match random.below(6) {
        0 => any_wrong_in_front(random, frame),
        _ => code_word(random, frame),
    };
    let look_alike = random.once_in(4);
    let count = match random.below(12) {
        _ if look_alike => 1,
        0..=2 => 0,
        3..=4 => 2,
        5 => 3 + random.below(15),
        _ => 1,
    };
    damage(random, &mut word, count);
    if look_alike {
        change_at_any_root(random, &mut word);
    }
    word
}

pub fn propose_one(random: &mut Random) -> Vec<Argument> {
    let (format, made_as) = formats(random);
    let frame = any_frame(random, made_as);
    let word = heard_by_a_proposer(random, &frame);
    let mut received = received(random, &word);
    match random.below(24) {
        0 => received[0] = any_length(random),
        // Its length byte alone differs from a word of zeros, which is a code word.
        1 => received[1..].fill(0),
        _ => {}
    }
    if random.once_in(2) {
        cut_or_longer(random, &mut received);
    }
    if random.once_in(24) {
        received = garbage(random);
    }
    let out = output_for_proposal(random, format, &received);
    vec![number(format as u8), received.into(), out.into()]
}

/// Lent memory for what is proposed, by the received L.
pub fn output_for_proposal(random: &mut Random, format: Format, received: &[u8]) -> Vec<u8> {
    let promised = match received.first().map(|&length| format.sizes(length)) {
        Some(Ok(sizes)) => sizes.frame,
        _ => 20,
    };
    output_for(random, promised + CHECK_BYTES)
}
