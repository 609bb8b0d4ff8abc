//! The sync search of modes T and C (7.4.2.3, 9.4.2) and the four kinds of
//! transmission.

use crate::answer::Refusal;
use crate::chips::{judge_received, list_of, list_of_number, number_of, Code};
use crate::frames::Format;

/// The 16 chips that modes T and C have in common.
pub const SYNC: usize = 0b0101010000111101;
/// The next 16 chips: mode C, format A.
pub const TAIL_C_A: usize = 0b0101010011001101;
/// The next 16 chips: mode C, format B. The same chips as the sync itself.
pub const TAIL_C_B: usize = SYNC;
/// Six chips that are no three-of-six word: a mode C tail begins with them.
pub const NOT_MODE_T: usize = 0b010101;
/// Chips of the sync, and of the tail.
pub const SYNC_CHIPS: usize = 16;

/// The four kinds of transmission; no other exists (01). The numbers are those
/// in a reception's answer and in the text form of a case.
#[derive(Clone, Copy, Debug, PartialEq, Eq)]
pub enum Kind {
    TWithA = 0,
    CWithA = 1,
    CWithB = 2,
    ManchesterWithA = 3,
}

impl Kind {
    pub const ALL: [Kind; 4] = [
        Kind::TWithA,
        Kind::CWithA,
        Kind::CWithB,
        Kind::ManchesterWithA,
    ];

    pub fn code(self) -> Code {
        match self {
            Kind::TWithA => Code::ThreeOfSix,
            Kind::CWithA | Kind::CWithB => Code::Nrz,
            Kind::ManchesterWithA => Code::Manchester,
        }
    }

    pub fn format(self) -> Format {
        match self {
            Kind::CWithB => Format::B,
            _ => Format::A,
        }
    }

    /// The sync chips that a writer puts before the frame.
    pub fn sync_chips(self) -> Vec<bool> {
        let words: &[usize] = match self {
            Kind::TWithA => &[SYNC],
            Kind::CWithA => &[SYNC, TAIL_C_A],
            Kind::CWithB => &[SYNC, TAIL_C_B],
            Kind::ManchesterWithA => &[],
        };
        words
            .iter()
            .flat_map(|&word| list_of_number(word, SYNC_CHIPS))
            .collect()
    }
}

/// Where a search found the sync, and how many positions it tried.
#[derive(Clone, Copy, Debug, PartialEq, Eq)]
pub struct Found {
    pub place: usize,
    pub tried: usize,
}

/// Positions available from a start place: chips − 16 − start + 1, or 0.
pub fn positions(chip_count: usize, start: usize) -> usize {
    (chip_count + 1)
        .saturating_sub(SYNC_CHIPS)
        .saturating_sub(start)
}

/// The search. Order: 10; found, or 7 or 14.
pub fn search(chips: &[u8], start: usize, allowance: usize) -> Result<Found, Refusal> {
    judge_received(chips, start)?;
    let list = list_of(chips);
    let available = positions(list.len(), start);
    let sync = list_of_number(SYNC, SYNC_CHIPS);
    for before in 0..available.min(allowance) {
        let place = start + before;
        if list[place..place + SYNC_CHIPS] == sync {
            return Ok(Found {
                place,
                tried: before + 1,
            });
        }
    }
    if allowance < available {
        Err(Refusal::AllowanceUsedUp { tried: allowance })
    } else {
        Err(Refusal::NoSync { tried: available })
    }
}

/// What follows a sync at `sync`: the kind, and the place of the frame's first
/// chip. Order: 1, 8. The 16 tail chips are asked for in mode T too (01).
pub fn after_sync(list: &[bool], sync: usize) -> Result<(Kind, usize), Refusal> {
    let tail_place = sync + SYNC_CHIPS;
    let frame_place = tail_place + SYNC_CHIPS;
    if list.len() < frame_place {
        return Err(Refusal::Ends);
    }
    let tail = &list[tail_place..frame_place];
    if number_of(tail) == TAIL_C_A {
        Ok((Kind::CWithA, frame_place))
    } else if number_of(tail) == TAIL_C_B {
        Ok((Kind::CWithB, frame_place))
    } else if number_of(&tail[..6]) == NOT_MODE_T {
        Err(Refusal::UnknownTail { sync })
    } else {
        // Mode T has no tail: the frame began directly after the sync.
        Ok((Kind::TWithA, tail_place))
    }
}
