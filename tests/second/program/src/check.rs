//! The block check (12.5.7) and its update for one changed byte.

use crate::answer::Refusal;
use crate::chips::{list_of, number_of};

/// The powers of x in the polynomial, as 12.5.7 writes them.
pub const POWERS: [usize; 10] = [16, 13, 12, 11, 10, 8, 6, 5, 2, 0];

/// The greatest distance of a changed byte from the end of its span: format B
/// has L and 125 content bytes under one check, and L cannot be changed.
pub const FARTHEST: usize = 125;

/// The remainder of the bytes, highest bit first, times x^16 when divided by
/// the polynomial: long division as at school, on a list of bits. It is what a
/// register that starts at 0 holds at the end.
pub fn remainder(bytes: &[u8]) -> u16 {
    let mut bits = list_of(bytes);
    let length = bits.len();
    bits.extend([false; 16]);
    for place in 0..length {
        if bits[place] {
            for power in POWERS {
                let under = place + 16 - power;
                bits[under] = !bits[under];
            }
        }
    }
    number_of(&bits[length..]) as u16
}

/// The check of some bytes: the remainder complemented. (12.5.7 prints
/// "complété"; C.2.2 has the right word "complémenté", and its example agrees.)
pub fn check(bytes: &[u8]) -> u16 {
    !remainder(bytes)
}

/// The check as it is sent: high byte first (12.2).
pub fn check_bytes(bytes: &[u8]) -> [u8; 2] {
    check(bytes).to_be_bytes()
}

/// The check of a span after one of its bytes changed. `distance` is the count
/// of bytes between that byte and the END of the span; 10 if over 125.
///
/// Remainders add up bit by bit: the new span is the old one plus a span that
/// is zero but for the changed bits. Zeros before the byte add nothing to the
/// remainder, zeros after it do, so only those are written out.
pub fn update(old_check: u16, old_byte: u8, new_byte: u8, distance: usize) -> Result<u16, Refusal> {
    if distance > FARTHEST {
        return Err(Refusal::OutOfRange);
    }
    let mut changed_bits = vec![old_byte ^ new_byte];
    changed_bits.extend(vec![0; distance]);
    Ok(old_check ^ remainder(&changed_bits))
}
