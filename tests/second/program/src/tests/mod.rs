//! Tests of the second program itself, before anything is compared with it.

mod annex_c;
mod answers;
mod comparing;
mod correction;
mod correction_flaws;
mod decoding;
mod decoding_flaws;
mod edges;
mod hidden;
mod makers;
mod mending;
mod mending_flaws;
mod orders;
mod round_trips;
mod store;
mod store_flaws;

use crate::chips::packed;

/// Chips from a text of 0 and 1; blanks are for the eye.
fn list(text: &str) -> Vec<bool> {
    text.chars()
        .filter(|chip| !chip.is_whitespace())
        .map(|chip| chip == '1')
        .collect()
}

/// The same as a buffer.
fn buffer(text: &str) -> Vec<u8> {
    packed(&list(text))
}

/// Bytes from hexadecimal text; blanks are for the eye.
fn bytes(text: &str) -> Vec<u8> {
    let digits: Vec<char> = text
        .chars()
        .filter(|digit| !digit.is_whitespace())
        .collect();
    digits
        .chunks(2)
        .map(|two| u8::from_str_radix(&two.iter().collect::<String>(), 16).unwrap())
        .collect()
}

/// A content of n bytes, all different from their neighbours.
fn content(n: usize) -> Vec<u8> {
    (0..n).map(|place| (7 * place + 3) as u8).collect()
}
