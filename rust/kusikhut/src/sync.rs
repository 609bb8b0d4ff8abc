//! The search for the sync word of modes T and C.
use crate::{raw, told, Refusal};

/// What the chips of a frame are: the mode with its format. There is no other kind.
#[derive(Clone, Copy, Debug, PartialEq, Eq)]
pub enum Kind {
    TWithA,
    CWithA,
    CWithB,
    ManchesterWithA,
}

/// Where the sync word was found, and how many positions were tried.
#[derive(Clone, Copy, Debug, PartialEq, Eq)]
pub struct Found {
    pub place: u64,
    pub tried: u64,
}

/// Searches 543Dh from chip `start` on, trying at most `allowance` positions.
pub fn search(chips: &[u8], start: usize, allowance: usize) -> Result<Found, Refusal> {
    // Sound: the slice is valid for its length, and `told` lends it two results.
    told(
        |r| unsafe { raw::kusikhut_search(chips.as_ptr(), chips.len(), start, allowance, r) },
        |[place, tried]| Found { place, tried },
    )
}
