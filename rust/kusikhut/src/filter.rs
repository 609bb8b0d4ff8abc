//! The meter filter.
use crate::{raw, told, Refusal};

/// Sixteen entries of M and A, eight bytes each.
pub type Entries = [[u8; 8]; 16];

/// Whether the content is of a meter among the first `count` entries. All eight bytes count: names that differ in the
/// top bit of M alone are two meters.
pub fn wanted(entries: &Entries, count: usize, content: &[u8]) -> Result<bool, Refusal> {
    let flat = entries.as_flattened().as_ptr();
    // Sound: the entries are 128 bytes, the slice is valid for its length, and `told` lends one result.
    told(|r| unsafe { raw::kusikhut_filter(flat, count, content.as_ptr(), content.len(), r) }, |[yes]| yes == 1)
}
