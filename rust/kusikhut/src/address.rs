//! What M says, the number of a maker: letters or none, and how far the address behind it is unique.
use crate::raw;

/// How far an address is unique (12.5.5).
#[derive(Clone, Copy, Debug, PartialEq, Eq)]
pub enum Reach {
    /// Worldwide: the maker fixed the address, and answers for it.
    Hard,
    /// At least within radio range: usually given when the device is installed. One elsewhere may have it, too.
    Soft,
}

/// What M says. Hard or soft is told whether or not M has letters.
#[derive(Clone, Copy, Debug, PartialEq, Eq)]
pub struct Maker {
    /// Three letters in ASCII, where M has letters.
    pub letters: Option<[u8; 3]>,
    pub reach: Reach,
}

/// What M says, or M2 of a header that has it. The low byte of M comes first on the air:
///
/// ```
/// use kusikhut::{maker, Maker, Reach};
/// let received = [0x43, 0x84];
/// let soft = Maker { letters: Some(*b"ABC"), reach: Reach::Soft };
/// assert_eq!(maker(u16::from_le_bytes(received)), soft);
/// assert_eq!(maker(0x0443), Maker { reach: Reach::Hard, ..soft });
/// ```
pub fn maker(m: u16) -> Maker {
    let mut r = [0u64; 5];
    // Sound: `r` is borrowed for this call alone. The call always accepts.
    unsafe { raw::kusikhut_maker(m, r.as_mut_ptr()) };
    Maker {
        letters: (r[0] == 1).then_some([r[1] as u8, r[2] as u8, r[3] as u8]),
        reach: if r[4] == 1 { Reach::Soft } else { Reach::Hard },
    }
}
