//! Small inputs of the filter, without chance: a content that differs from an entry in
//! a single bit, above all in the top bit of M, which makes it another meter (2/14).

use super::names::turn_top_bit;
use crate::case::{Case, Operation};
use crate::filter::Entries;

/// All of them.
pub fn filter_inputs() -> Vec<Case> {
    let groups = [every_place, every_m, every_bit];
    groups.into_iter().flat_map(|group| group()).collect()
}

/// Values of M without the top bit: three with letters, then some without.
const MAKERS: [u16; 8] = [
    0x0443, 0x0421, 0x6B5A, 0x0000, 0x0080, 0x0420, 0x7F5A, 0x7FFF,
];

/// Numbers of entries in use, so that the first, the middle one and the last differ.
const COUNTS: [usize; 3] = [3, 9, 16];

/// A meter with this M.
fn meter(m: u16) -> [u8; 8] {
    let [low, high] = m.to_le_bytes();
    [low, high, 0x78, 0x56, 0x34, 0x12, 0x01, 0x07]
}

/// The same with the top bit of M turned.
fn other_reach(meter: [u8; 8]) -> [u8; 8] {
    let mut other = meter;
    turn_top_bit(&mut other);
    other
}

/// Sixteen entries that are like no meter here, nor like each other.
fn strangers() -> Entries {
    let mut entries = [[0; 8]; 16];
    for (entry, byte) in entries.iter_mut().zip(0xA0..) {
        *entry = [byte; 8];
    }
    entries
}

/// A content of this meter, with a body.
fn filter(entries: &Entries, count: usize, heard: [u8; 8]) -> Case {
    let content = [&[0x44], &heard[..], &[0x78, 0x0A]].concat();
    let arguments = vec![entries.concat().into(), count.into(), content.into()];
    Case::new(Operation::Filter, arguments)
}

// ------------------------------------------------------------------- the groups

/// A meter that is hard or soft, and an entry of the other one: anywhere, with every
/// number of entries in use, without an equal entry and with one in any other place.
fn every_place() -> Vec<Case> {
    let mut cases = Vec::new();
    let hard = meter(MAKERS[0]);
    for heard in [hard, other_reach(hard)] {
        for count in 0..=16 {
            for almost in 0..16 {
                let mut entries = strangers();
                entries[almost] = other_reach(heard);
                cases.push(filter(&entries, count, heard));
                for equal in (0..16).filter(|&equal| equal != almost) {
                    let mut both = entries;
                    both[equal] = heard;
                    cases.push(filter(&both, count, heard));
                }
            }
        }
    }
    cases
}

/// Both ways for each M, whether it has letters or not: the other one in the first
/// place in use, in the middle or in the last, alone or with an equal one behind.
fn every_m() -> Vec<Case> {
    let mut cases = Vec::new();
    for m in MAKERS {
        for heard in [meter(m), other_reach(meter(m))] {
            for count in COUNTS {
                for almost in [0, count / 2, count - 1] {
                    let mut entries = strangers();
                    entries[almost] = other_reach(heard);
                    cases.push(filter(&entries, count, heard));
                    if almost + 1 < count {
                        entries[count - 1] = heard;
                        cases.push(filter(&entries, count, heard));
                    }
                }
            }
        }
    }
    cases
}

/// An entry that is equal, and one that differs in a single bit, for each of the 64.
fn every_bit() -> Vec<Case> {
    let mut cases = Vec::new();
    let heard = meter(MAKERS[0]);
    for count in COUNTS {
        for place in [0, count / 2, count - 1] {
            let mut entries = strangers();
            entries[place] = heard;
            cases.push(filter(&entries, count, heard));
            for bit in 0..64 {
                let mut almost = heard;
                almost[bit / 8] ^= 1 << (bit % 8);
                entries[place] = almost;
                cases.push(filter(&entries, count, heard));
            }
        }
    }
    cases
}
