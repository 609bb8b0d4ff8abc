//! The block check and its update.
use crate::{raw, told, Refusal};

/// The block check of any bytes.
pub fn check(bytes: &[u8]) -> u16 {
    // Sound: the slice is valid for its length.
    unsafe { raw::kusikhut_check(bytes.as_ptr(), bytes.len()) }
}

/// The check after one byte changed, `distance` bytes before the end of the checked span.
pub fn update(old_check: u16, old: u8, new: u8, distance: usize) -> Result<u16, Refusal> {
    // Sound: it takes numbers, and `told` lends it one result.
    told(|r| unsafe { raw::kusikhut_update(old_check, old, new, distance, r) }, |[check]| check as u16)
}
