//! Cases of the line codes, the chip reader and the search.

use super::{number, output_for, HUGE};
use crate::case::Argument;
use crate::chips::{encode_list, list_of_number, packed, Code, LONGEST_RECEIVED};
use crate::random::Random;
use crate::sync::{positions, SYNC, SYNC_CHIPS};

/// Chips that are no transmission: random, still, or the preamble's 01 01 01.
pub fn noise(random: &mut Random, count: usize) -> Vec<bool> {
    let kind = random.below(6);
    (0..count)
        .map(|place| match kind {
            0 => false,
            1 => true,
            2 => place % 2 == 1,
            _ => random.once_in(2),
        })
        .collect()
}

/// How many chips of noise stand before something.
pub fn lead(random: &mut Random) -> usize {
    match random.below(8) {
        0 | 1 => 0,
        2 => 8 * random.below(20),
        3 => random.below(2000),
        _ => random.below(100),
    }
}

/// Chips as a received buffer: perhaps with noise behind, perhaps cut short by
/// 1 to 3 bytes, perhaps filled up to exactly 1,024 or 1,025 bytes. Answers by
/// how many chips everything moved back, too.
pub fn buffer(random: &mut Random, mut list: Vec<bool>) -> (Vec<u8>, usize) {
    let mut moved = 0;
    match random.below(16) {
        0 => moved = fill(random, &mut list, LONGEST_RECEIVED),
        1 => moved = fill(random, &mut list, LONGEST_RECEIVED + 1),
        2..=6 => {
            let behind = random.below(100);
            list.extend(noise(random, behind));
        }
        _ => {}
    }
    let mut bytes = packed(&list);
    if random.once_in(16) {
        let left = bytes.len().saturating_sub(1 + random.below(3));
        bytes.truncate(left);
    }
    if random.once_in(60) {
        bytes.clear();
    }
    (bytes, moved)
}

/// Noise up to a number of bytes; behind the chips or before them, so that a
/// frame also ends with the last chip of the longest buffer. Answers how many
/// chips came before.
pub fn fill(random: &mut Random, list: &mut Vec<bool>, bytes: usize) -> usize {
    let missing = (8 * bytes).saturating_sub(list.len());
    let more = noise(random, missing);
    if random.once_in(2) {
        list.extend(more);
        0
    } else {
        list.splice(0..0, more);
        missing
    }
}

/// One chip turned over.
pub fn flip_a_chip(random: &mut Random, list: &mut [bool]) {
    if !list.is_empty() {
        let place = random.below(list.len());
        list[place] = !list[place];
    }
}

/// One wrong chip, or one whole word that is no code word. A wrong chip in a
/// three-of-six word never leaves three ones, so the four words that have three
/// ones and yet are none must be put in whole.
pub fn spoil(random: &mut Random, code: Code, list: &mut [bool]) {
    let words = list.len() / code.chips_in_a_word();
    if words == 0 || random.once_in(2) {
        flip_a_chip(random, list);
        return;
    }
    let wrong = match code {
        Code::Nrz => random.below(256),
        Code::Manchester => random.pick(&[0b00, 0b11]),
        Code::ThreeOfSix => random.pick(&[7, 21, 42, 56]),
    };
    // Often among the first words: a frame judges those of L apart.
    let near = words.min(2 * code.words_in_a_byte());
    let within = if random.once_in(2) { near } else { words };
    let place = random.below(within) * code.chips_in_a_word();
    let chips = list_of_number(wrong, code.chips_in_a_word());
    list[place..place + code.chips_in_a_word()].copy_from_slice(&chips);
}

/// A start place: mostly the one where something stands, else an edge.
pub fn start_near(random: &mut Random, place: usize, chips: &[u8]) -> usize {
    let count = 8 * chips.len();
    match random.below(24) {
        0 => 0,
        1 => count,
        2 => count + 1,
        3 => random.pick(&HUGE),
        4 => place + 1,
        5 => place.saturating_sub(1),
        6 => count.saturating_sub(random.below(40)),
        7 => random.below(count + 2),
        _ => place,
    }
}

pub fn any_code(random: &mut Random) -> Code {
    random.pick(&Code::ALL)
}

/// Encoded bytes at a place in noise, perhaps with one wrong chip or word.
/// Answers the buffer, the place and the number of bytes.
pub fn encoded_in_noise(random: &mut Random, code: Code) -> (Vec<u8>, usize, usize) {
    let place = lead(random);
    let n = random.below(40);
    let mut encoded = encode_list(code, &random.bytes(n));
    if random.once_in(4) {
        spoil(random, code, &mut encoded);
    }
    let mut list = noise(random, place);
    list.extend(encoded);
    let (chips, moved) = buffer(random, list);
    (chips, place + moved, n)
}

pub fn decode(random: &mut Random) -> Vec<Argument> {
    let code = any_code(random);
    let (chips, place, encoded) = encoded_in_noise(random, code);
    let start = start_near(random, place, &chips);
    let room = (8 * chips.len()).saturating_sub(start) / code.chips_in_a_byte();
    let n = match random.below(12) {
        0 => 0,
        1 => encoded + 1,
        2 => random.pick(&HUGE),
        3 => room,
        4 => room + 1,
        5 => random.below(encoded + 1),
        _ => encoded,
    };
    // The longest decoded result is 1,024 bytes; a huge n is refused before.
    let out = output_for(random, n.min(LONGEST_RECEIVED));
    vec![
        number(code as u8),
        chips.into(),
        start.into(),
        n.into(),
        out.into(),
    ]
}

pub fn encode(random: &mut Random) -> Vec<Argument> {
    let code = any_code(random);
    let length = match random.below(20) {
        0 => 0,
        1 => 1023 + random.below(3),
        2 => random.below(1500),
        _ => random.below(60),
    };
    let bytes = random.bytes(length);
    let size = (length * code.chips_in_a_byte()).div_ceil(8);
    let out = output_for(random, size);
    vec![number(code as u8), bytes.into(), out.into()]
}

pub fn word(random: &mut Random) -> Vec<Argument> {
    let code = any_code(random);
    let (chips, place, encoded) = encoded_in_noise(random, code);
    let words = encoded * code.words_in_a_byte();
    let inside = place + random.below(words + 1) * code.chips_in_a_word();
    let last = (8 * chips.len()).saturating_sub(code.chips_in_a_word());
    let at = match random.below(8) {
        0 => last,
        1 => last + 1,
        _ => start_near(random, inside, &chips),
    };
    vec![number(code as u8), chips.into(), at.into()]
}

/// The letters of the program `words`: a reader for each word, or one reader.
const WORDS_LETTERS: [(u8, Code); 6] = [
    (b'N', Code::Nrz),
    (b'M', Code::Manchester),
    (b'T', Code::ThreeOfSix),
    (b'n', Code::Nrz),
    (b'm', Code::Manchester),
    (b't', Code::ThreeOfSix),
];

/// An input of the program `words`: its letter, the start, the chips.
fn words_input(letter: u8, start: usize, chips: &[u8]) -> Vec<u8> {
    let mut input = vec![letter];
    input.extend((start as u64).to_be_bytes());
    input.extend(chips);
    input
}

/// Encoded bytes in noise for the program `words`, read from their first word
/// or from an edge.
pub fn words(random: &mut Random) -> Vec<Argument> {
    let (letter, code) = random.pick(&WORDS_LETTERS);
    let (chips, place, _) = encoded_in_noise(random, code);
    let start = start_near(random, place, &chips);
    vec![words_input(letter, start, &chips).into()]
}

/// The edges of the program `words` and its chip reader.
pub fn words_edges() -> Vec<Vec<u8>> {
    let mut inputs = Vec::new();
    for (letter, code) in WORDS_LETTERS {
        let zeros = packed(&encode_list(code, &[0; 1024]));
        let longest = &zeros[..LONGEST_RECEIVED];
        let end = 8 * LONGEST_RECEIVED;
        let word = code.chips_in_a_word();
        // No chip at all; one byte, from its first chip to behind its end.
        for (count, start) in [(0, 0), (0, 1), (1, 0), (1, 7), (1, 8), (1, 9)] {
            inputs.push(words_input(letter, start, &zeros[..count]));
        }
        // The end of the longest buffer: the last word, one chip too late for
        // it, the chip count, and above it; the last start would be chip 0 if
        // only its lower bits counted.
        for start in [
            end - word,
            end - word + 1,
            end,
            end + 1,
            usize::MAX,
            usize::MAX / 2 + 1,
        ] {
            inputs.push(words_input(letter, start, longest));
        }
        // A buffer that is too long, whatever its start.
        let too_long = [longest, &[0x96]].concat();
        for start in [0, end, end + 8, end + 9] {
            inputs.push(words_input(letter, start, &too_long));
        }
        inputs.push(words_input(letter, 0, &[0x96; 3000]));
    }
    // Every word of the longest buffer.
    for letter in [b'N', b'm', b'T'] {
        let (_, code) = WORDS_LETTERS
            .into_iter()
            .find(|one| one.0 == letter)
            .unwrap();
        let zeros = packed(&encode_list(code, &[0; 1024]));
        inputs.push(words_input(letter, 0, &zeros[..LONGEST_RECEIVED]));
    }
    // Words that are none, behind one that is: 6, and the place stays.
    for (letter, code, words) in [
        (b't', Code::ThreeOfSix, &[7, 21, 42, 56, 0, 63][..]),
        (b'm', Code::Manchester, &[0b00, 0b11]),
    ] {
        for &word in words {
            let mut list = encode_list(code, &[0x44]);
            list.extend(list_of_number(word, code.chips_in_a_word()));
            inputs.push(words_input(letter, 0, &packed(&list)));
        }
    }
    // Inputs that name no reader.
    inputs.extend([
        vec![],
        b"T".to_vec(),
        b"TTTTTTTT".to_vec(),
        words_input(b'X', 0, &[0x71]),
    ]);
    inputs
}

/// An allowance: all, none, or about as many positions as there are, or as are
/// needed to reach a place.
pub fn allowance(random: &mut Random, chips: &[u8], start: usize, wanted: usize) -> usize {
    let available = positions(8 * chips.len(), start);
    let needed = wanted.saturating_sub(start).saturating_add(1);
    match random.below(20) {
        0 => 0,
        1 => 1,
        2 => available,
        3 => available + 1,
        4 => available.saturating_sub(1),
        5 => needed,
        6 => needed - 1,
        7 => random.pick(&HUGE),
        8 => random.below(available + 1),
        _ => usize::MAX,
    }
}

/// A start place at or before a sync, or an edge.
pub fn start_before(random: &mut Random, sync: usize, chips: &[u8]) -> usize {
    if random.once_in(2) {
        random.below(sync + 1)
    } else {
        start_near(random, sync, chips)
    }
}

pub fn search(random: &mut Random) -> Vec<Argument> {
    let place = lead(random);
    let mut list = noise(random, place);
    if !random.once_in(4) {
        let mut sync = list_of_number(SYNC, SYNC_CHIPS);
        if random.once_in(6) {
            flip_a_chip(random, &mut sync);
        }
        list.extend(sync);
    }
    let (chips, moved) = buffer(random, list);
    let start = start_before(random, place + moved, &chips);
    let allowance = allowance(random, &chips, start, place + moved);
    vec![chips.into(), start.into(), allowance.into()]
}
