//! Line codes alone: decoding, encoding, and one word at a time.
use crate::{raw, told, written, Refusal};

#[derive(Clone, Copy, Debug, PartialEq, Eq)]
pub enum Code {
    Nrz,
    ThreeOfSix,
    Manchester,
}

impl Code {
    /// Decodes `n` bytes from chip `start` on into the first `n` bytes of `out`.
    pub fn decode(self, chips: &[u8], start: usize, n: usize, out: &mut [u8]) -> Result<(), Refusal> {
        let call: raw::Decode = match self {
            Code::Nrz => raw::kusikhut_decode_nrz,
            Code::ThreeOfSix => raw::kusikhut_decode_three_of_six,
            Code::Manchester => raw::kusikhut_decode_manchester,
        };
        // Sound: both slices are valid for their lengths, `out` is borrowed for this call alone, and `told` lends one
        // result.
        told(|r| unsafe { call(chips.as_ptr(), chips.len(), start, n, out.as_mut_ptr(), out.len(), r) }, |[_word]| ())
    }

    /// Encodes `bytes` into the start of `out`; gives the number of bytes written.
    pub fn encode(self, bytes: &[u8], out: &mut [u8]) -> Result<u64, Refusal> {
        let call = match self {
            Code::Nrz => raw::kusikhut_encode_nrz,
            Code::ThreeOfSix => raw::kusikhut_encode_three_of_six,
            Code::Manchester => raw::kusikhut_encode_manchester,
        };
        written(call, bytes, out)
    }

    /// How many chips a word has.
    pub fn width(self) -> usize {
        match self {
            Code::Nrz => 8,
            Code::ThreeOfSix => 6,
            Code::Manchester => 2,
        }
    }

    /// What the code word at chip `at` stands for: a byte, a half-byte or a bit.
    pub fn word(self, chips: &[u8], at: usize) -> Result<u64, Refusal> {
        let call: raw::Word = match self {
            Code::Nrz => raw::kusikhut_word_nrz,
            Code::ThreeOfSix => raw::kusikhut_word_three_of_six,
            Code::Manchester => raw::kusikhut_word_manchester,
        };
        // Sound: the slice is valid for its length, and `told` lends one result.
        told(|r| unsafe { call(chips.as_ptr(), chips.len(), at, r) }, |[value]| value)
    }
}
