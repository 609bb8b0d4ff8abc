//! The meter filter.

use crate::answer::Refusal;

/// Entries of M (2) and A (6), as they stand in a content. The top bit of M is one of
/// their 64 bits: two that differ there alone, one hard and one soft, are two meters
/// (2/14).
pub type Entries = [[u8; 8]; 16];

/// Whether a content is wanted: exactly when its bytes 1 to 8 equal an entry in
/// use. Order: 10, 5.
pub fn wanted(entries: &Entries, count: usize, content: &[u8]) -> Result<bool, Refusal> {
    if count > entries.len() {
        return Err(Refusal::OutOfRange);
    }
    // Nine bytes are enough to compare; that a frame needs ten is no matter here.
    if content.len() < 9 {
        return Err(Refusal::ContentLength);
    }
    Ok(entries[..count]
        .iter()
        .any(|entry| entry[..] == content[1..9]))
}
