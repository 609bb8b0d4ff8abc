//! Chips and the three line codes (6.4.1, 6.4.2, 7.4.2, 9.4.1).

use crate::answer::Refusal;

/// A received chip buffer has at most this many bytes (01, house rule).
pub const LONGEST_RECEIVED: usize = 1024;

/// Table 10: the code word for each half-byte 0 to 15.
pub const THREE_OF_SIX: [usize; 16] = [
    0b010110, 0b001101, 0b001110, 0b001011, 0b011100, 0b011001, 0b011010, 0b010011, 0b101100,
    0b100101, 0b100110, 0b100011, 0b110100, 0b110001, 0b110010, 0b101001,
];

/// The three line codes. The numbers are those of the text form of a case.
#[derive(Clone, Copy, Debug, PartialEq, Eq)]
pub enum Code {
    Nrz = 0,
    Manchester = 1,
    ThreeOfSix = 2,
}

impl Code {
    pub const ALL: [Code; 3] = [Code::Nrz, Code::Manchester, Code::ThreeOfSix];

    /// Chips in one code word.
    pub fn chips_in_a_word(self) -> usize {
        match self {
            Code::Nrz => 8,
            Code::Manchester => 2,
            Code::ThreeOfSix => 6,
        }
    }

    /// Data bits that one code word stands for.
    pub fn bits_in_a_word(self) -> usize {
        match self {
            Code::Nrz => 8,
            Code::Manchester => 1,
            Code::ThreeOfSix => 4,
        }
    }

    pub fn words_in_a_byte(self) -> usize {
        8 / self.bits_in_a_word()
    }

    pub fn chips_in_a_byte(self) -> usize {
        self.words_in_a_byte() * self.chips_in_a_word()
    }

    /// The code word for a value; its first chip is its highest bit.
    pub fn word_for(self, value: usize) -> usize {
        match self {
            Code::Nrz => value,
            // 6.4.1: "10" is a zero, "01" is a one.
            Code::Manchester => [0b10, 0b01][value],
            Code::ThreeOfSix => THREE_OF_SIX[value],
        }
    }

    /// The value of a code word, or nothing if it is not a code word.
    pub fn value_of(self, word: usize) -> Option<usize> {
        match self {
            Code::Nrz => Some(word),
            Code::Manchester => match word {
                0b10 => Some(0),
                0b01 => Some(1),
                _ => None,
            },
            Code::ThreeOfSix => THREE_OF_SIX.iter().position(|&known| known == word),
        }
    }
}

/// The chips of a buffer as a list: first chip in the highest bit (01).
pub fn list_of(bytes: &[u8]) -> Vec<bool> {
    let mut list = Vec::new();
    for &byte in bytes {
        list.extend(list_of_number(byte as usize, 8));
    }
    list
}

/// The lowest `width` bits of a number as a list, highest first.
pub fn list_of_number(number: usize, width: usize) -> Vec<bool> {
    (0..width)
        .rev()
        .map(|bit| (number >> bit) & 1 == 1)
        .collect()
}

/// The number that a short list of bits stands for, highest first.
pub fn number_of(list: &[bool]) -> usize {
    list.iter()
        .fold(0, |number, &bit| 2 * number + bit as usize)
}

/// A list of chips as bytes; unused chips of the last byte are 0 (01).
pub fn packed(list: &[bool]) -> Vec<u8> {
    let mut bytes = Vec::new();
    for eight in list.chunks(8) {
        let mut full = eight.to_vec();
        full.resize(8, false);
        bytes.push(number_of(&full) as u8);
    }
    bytes
}

/// Refusal 10 for a received buffer and a start place. It comes first in every
/// order where it can occur.
pub fn judge_received(chips: &[u8], start: usize) -> Result<(), Refusal> {
    if chips.len() > LONGEST_RECEIVED || start > 8 * chips.len() {
        return Err(Refusal::OutOfRange);
    }
    Ok(())
}

/// Decodes `n` bytes from the front of a list: refusals 1, then 6.
pub fn decode_list(code: Code, list: &[bool], n: usize) -> Result<Vec<u8>, Refusal> {
    // Judged over whole numbers: n may be any usize, so the product needs room.
    let needed = n as u128 * code.chips_in_a_byte() as u128;
    if needed > list.len() as u128 {
        return Err(Refusal::Ends);
    }
    let mut bits = Vec::new();
    for word in 0..n * code.words_in_a_byte() {
        let place = word * code.chips_in_a_word();
        let chips = &list[place..place + code.chips_in_a_word()];
        match code.value_of(number_of(chips)) {
            Some(value) => bits.extend(list_of_number(value, code.bits_in_a_word())),
            None => return Err(Refusal::NotACodeWord { word }),
        }
    }
    Ok(packed(&bits))
}

/// Encodes bytes as a list of chips, highest bit first (6.4.2, 7.4.2.2, 9.4.1).
pub fn encode_list(code: Code, bytes: &[u8]) -> Vec<bool> {
    let mut list = Vec::new();
    for bits in list_of(bytes).chunks(code.bits_in_a_word()) {
        let word = code.word_for(number_of(bits));
        list.extend(list_of_number(word, code.chips_in_a_word()));
    }
    list
}

/// Decoding alone. Order: 10, 1, 6, 4. Answers the number of bytes.
pub fn decode(
    code: Code,
    chips: &[u8],
    start: usize,
    n: usize,
    out: &mut [u8],
) -> Result<usize, Refusal> {
    judge_received(chips, start)?;
    let bytes = decode_list(code, &list_of(chips)[start..], n)?;
    put(&bytes, out)
}

/// Encoding alone. Only refusal 4. Answers the number of bytes written.
pub fn encode(code: Code, bytes: &[u8], out: &mut [u8]) -> Result<usize, Refusal> {
    // Judged before the list is made, so that a very long input with a small
    // output costs no memory.
    let chips = bytes.len() as u128 * code.chips_in_a_byte() as u128;
    if chips.div_ceil(8) > out.len() as u128 {
        return Err(Refusal::OutputTooSmall);
    }
    put(&packed(&encode_list(code, bytes)), out)
}

/// The code word at a chip. Order: 10, 1, 6. Answers the word's value.
pub fn word(code: Code, chips: &[u8], at: usize) -> Result<usize, Refusal> {
    judge_received(chips, at)?;
    first_word(code, &list_of(chips)[at..])
}

/// The code word at the front of a list: refusals 1, then 6.
pub fn first_word(code: Code, list: &[bool]) -> Result<usize, Refusal> {
    if list.len() < code.chips_in_a_word() {
        return Err(Refusal::Ends);
    }
    let chips = &list[..code.chips_in_a_word()];
    // The call has one word, so its place among the call's words is always 0.
    code.value_of(number_of(chips))
        .ok_or(Refusal::NotACodeWord { word: 0 })
}

/// Puts a result at the front of a lent output; refusal 4 if it does not fit.
/// Bytes after it stay.
pub fn put(result: &[u8], out: &mut [u8]) -> Result<usize, Refusal> {
    if out.len() < result.len() {
        return Err(Refusal::OutputTooSmall);
    }
    out[..result.len()].copy_from_slice(result);
    Ok(result.len())
}
