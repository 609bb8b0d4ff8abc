//! Small inputs of the settings store, without chance: a few stores, and every
//! way in which their bytes can be wrong or an argument stand at an edge.

use super::number;
use super::store::{address, meter_place, parts, with_twice, wrong_values, NUMBERS};
use crate::case::{Argument, Case, Operation};
use crate::frames::Format;
use crate::store::{Address, Meter, Mode, Store, Version, MEMORY, MOST_METERS};

/// The sizes of the stores.
const COUNTS: [usize; 5] = [0, 1, 2, 3, MOST_METERS];

/// All of them, one group after the other, so that they need not be in memory at
/// the same time.
pub fn store_inputs() -> impl Iterator<Item = Case> {
    let of_each_size = COUNTS.into_iter().flat_map(|count| {
        let groups = [cut_files, wrong_files, longer_files, wrong_memories, edges];
        groups.into_iter().flat_map(move |group| group(count))
    });
    let others = [every_byte, memory_lengths, overlaps, numbers_and_marks];
    of_each_size.chain(others.into_iter().flat_map(|group| group()))
}

/// The meters from one index to another, with everything in them that differs.
fn meters(from: usize, to: usize) -> Store {
    let meter = |index: usize| Meter {
        address: address(index),
        mode: Mode::ALL[index % 6],
        format: Format::ALL[index % 2],
        number: NUMBERS[index % NUMBERS.len()],
        unsure: index.is_multiple_of(3),
    };
    Store {
        allowance: 0x0A0B_0C00 + to as u32,
        meters: (from..to).map(meter).collect(),
    }
}

/// Memory of this length that begins with these bytes, or with as many of them as
/// fit. Behind them stands what a full store would have there.
fn memory_of(front: &[u8], length: usize) -> Vec<u8> {
    let mut memory = meters(20, 84).file(Version::Two);
    memory.splice(..front.len(), front.iter().copied());
    memory.resize(length, 0xEE);
    memory
}

fn memory(store: &Store) -> Vec<u8> {
    memory_of(&store.file(Version::Two), MEMORY)
}

// One case of each call.

fn empty(memory: Vec<u8>) -> Case {
    Case::new(Operation::StoreEmpty, vec![memory.into()])
}

fn add(memory: Vec<u8>, meter: Address, mode: u8, format: u8) -> Case {
    let arguments = vec![memory.into(), name(meter), number(mode), number(format)];
    Case::new(Operation::StoreAdd, arguments)
}

fn hear(memory: Vec<u8>, meter: Address, heard: u32) -> Case {
    let arguments = vec![memory.into(), name(meter), number(heard)];
    Case::new(Operation::StoreHear, arguments)
}

fn issue(memory: Vec<u8>, meter: Address) -> Case {
    Case::new(Operation::StoreIssue, vec![memory.into(), name(meter)])
}

fn restore(memory: Vec<u8>, file: Vec<u8>) -> Case {
    Case::new(Operation::StoreRestore, vec![memory.into(), file.into()])
}

fn write(memory: Vec<u8>, out: usize) -> Case {
    let out = vec![0xDD; out];
    Case::new(Operation::StoreWrite, vec![memory.into(), out.into()])
}

fn look_up(memory: Vec<u8>, meter: Address) -> Case {
    Case::new(Operation::StoreLookUp, vec![memory.into(), name(meter)])
}

fn allowance(memory: Vec<u8>) -> Case {
    Case::new(Operation::StoreAllowance, vec![memory.into()])
}

fn set_allowance(memory: Vec<u8>, allowance: u32) -> Case {
    let arguments = vec![memory.into(), number(allowance)];
    Case::new(Operation::StoreSetAllowance, arguments)
}

fn name(meter: Address) -> Argument {
    meter.to_vec().into()
}

/// Every call on a memory; those about a meter ask for this one.
fn every_call(memory: &[u8], meter: Address) -> Vec<Case> {
    let memory = || memory.to_vec();
    vec![
        empty(memory()),
        add(memory(), meter, 1, 1),
        hear(memory(), meter, 7),
        issue(memory(), meter),
        restore(memory(), meters(0, 2).file(Version::Two)),
        write(memory(), MEMORY),
        look_up(memory(), meter),
        allowance(memory()),
        set_allowance(memory(), 9),
    ]
}

// ------------------------------------------------------------------- the groups

/// Every length to which a file can be cut, into an empty store and into one that
/// holds a meter of it and another.
fn cut_files(count: usize) -> Vec<Case> {
    let mut cases = Vec::new();
    for version in Version::ALL {
        let file = meters(0, count).file(version);
        for length in 0..=file.len() {
            for own in [Store::empty(), meters(count.saturating_sub(1), count + 1)] {
                cases.push(restore(memory(&own), file[..length].to_vec()));
            }
        }
    }
    cases
}

/// A file or the front of a memory with one thing wrong: each value of interest at
/// each place whose value is not free, and meters twice.
fn wrong_fronts(version: Version, count: usize) -> Vec<Vec<u8>> {
    let right = meters(0, count).file(version);
    let mut fronts = Vec::new();
    for (place, part) in parts(version, count) {
        for value in wrong_values(part, right[place]) {
            let mut wrong = right.clone();
            wrong[place] = value;
            fronts.push(wrong);
        }
    }
    for (one, other) in pairs(count) {
        fronts.push(with_twice(&right, version, one, other));
    }
    fronts
}

/// Two places in a list: neighbours, and each place with the first and the last.
fn pairs(count: usize) -> Vec<(usize, usize)> {
    let mut pairs = Vec::new();
    for other in 0..count {
        for one in 0..other {
            if one == 0 || other == count - 1 || other == one + 1 {
                pairs.push((one, other));
            }
        }
    }
    pairs
}

fn wrong_files(count: usize) -> Vec<Case> {
    let mut cases = Vec::new();
    for version in Version::ALL {
        for file in wrong_fronts(version, count) {
            cases.push(restore(memory(&Store::empty()), file));
        }
    }
    cases
}

/// Bytes left over: one, a whole meter, a whole file, and a count that goes on.
fn longer_files(count: usize) -> Vec<Case> {
    let mut cases = Vec::new();
    for version in Version::ALL {
        let file = meters(0, count).file(version);
        let longer = meters(0, count + 1).file(version);
        let behind = [
            vec![0],
            vec![1],
            vec![2],
            vec![0xEE; 300],
            longer[meter_place(version, count)..].to_vec(),
            file.clone(),
        ];
        for more in behind {
            for own in [Store::empty(), meters(0, MOST_METERS)] {
                cases.push(restore(memory(&own), [&file[..], &more].concat()));
            }
        }
        // One meter more than the count says; of 64 a count of 65.
        cases.push(restore(memory(&Store::empty()), longer));
    }
    cases
}

/// The same wrong bytes in the memory. A full store is judged by one call alone,
/// the others by every one.
fn wrong_memories(count: usize) -> Vec<Case> {
    let mut cases = Vec::new();
    let last = address(count.saturating_sub(1));
    let mut fronts = wrong_fronts(Version::Two, count);
    fronts.push(meters(0, count).file(Version::One));
    for front in fronts {
        let memory = memory_of(&front, MEMORY);
        if count < MOST_METERS {
            cases.extend(every_call(&memory, last));
        } else {
            cases.push(hear(memory, last, 7));
        }
    }
    cases
}

/// Arguments at their edges, for the first meter, the last, one in between, one
/// that is not held, and those that differ from the first in one byte.
fn edges(count: usize) -> Vec<Case> {
    let store = meters(0, count);
    let memory = || memory(&store);
    let mut asked = vec![address(0), address(count / 2), address(count), address(90)];
    asked.push(address(count.saturating_sub(1)));
    for place in 0..8 {
        let mut almost = address(0);
        almost[place] ^= 0x80;
        asked.push(almost);
    }
    let mut cases = Vec::new();
    for &meter in &asked {
        cases.extend(every_call(&memory(), meter));
        for heard in NUMBERS {
            cases.push(hear(memory(), meter, heard));
        }
    }
    for &meter in &asked[..5] {
        for mode in [0, 1, 2, 3, 4, 5, 6, 7, 0x80, 0xFF] {
            for format in [0, 1, 2, 3, 0x80, 0xFF] {
                cases.push(add(memory(), meter, mode, format));
            }
        }
    }
    let size = store.file(Version::Two).len();
    for out in [
        0,
        1,
        size - 20.min(size),
        size - 1,
        size,
        size + 1,
        size + 40,
    ] {
        cases.push(write(memory(), out));
    }
    for set in NUMBERS {
        cases.push(set_allowance(memory(), set));
    }
    cases
}

/// Every value of every byte of a store with one meter: as a file, restored into a
/// store that holds this meter, and as memory.
fn every_byte() -> Vec<Case> {
    let mut cases = Vec::new();
    for version in Version::ALL {
        let right = meters(1, 2).file(version);
        for place in 0..right.len() {
            for value in 0..=255 {
                let mut changed = right.clone();
                changed[place] = value;
                if version == Version::Two {
                    let memory = memory_of(&changed, MEMORY);
                    cases.push(issue(memory.clone(), address(1)));
                    cases.push(look_up(memory, address(1)));
                }
                cases.push(restore(memory(&meters(0, 2)), changed));
            }
        }
    }
    cases
}

/// Memory of every length, with a store that would fit in less. Every call at the
/// lengths that matter.
fn memory_lengths() -> Vec<Case> {
    let front = meters(0, 2).file(Version::Two);
    let mut cases = Vec::new();
    for length in 0..=MEMORY + 2 {
        let memory = memory_of(&front, length);
        cases.push(empty(memory.clone()));
        cases.push(allowance(memory));
    }
    for length in [0, 1, 7, 8, 47, 48, MEMORY - 1, MEMORY, MEMORY + 1, 3000] {
        for first in [0, 1, 2, 3, 0xFF] {
            let mut memory = memory_of(&front, length);
            if let Some(version) = memory.first_mut() {
                *version = first;
            }
            cases.extend(every_call(&memory, address(1)));
        }
    }
    cases
}

/// Restores by how many meters are held, in the file, and in common: about 64
/// together.
fn overlaps() -> Vec<Case> {
    let mut cases = Vec::new();
    for (held, saved, common) in [
        (40, 30, 6),
        (40, 30, 5),
        (40, 30, 30),
        (64, 64, 64),
        (64, 64, 63),
        (64, 64, 0),
        (64, 1, 1),
        (64, 1, 0),
        (64, 0, 0),
        (63, 1, 0),
        (63, 2, 1),
        (63, 2, 0),
        (63, 64, 63),
        (1, 64, 1),
        (1, 64, 0),
        (1, 63, 0),
        (0, 64, 0),
        (0, 1, 0),
        (32, 32, 0),
        (33, 32, 1),
        (33, 32, 0),
        (3, 3, 3),
        (3, 3, 0),
        (3, 0, 0),
        (0, 0, 0),
    ] {
        let own = meters(0, held);
        let mut file = meters(held - common, held - common + saved);
        for _ in 0..2 {
            for version in Version::ALL {
                let bytes = file.file(version);
                cases.push(restore(memory(&own), bytes.clone()));
                // Malformed or of no version, and perhaps too many: 17 and 18.
                cases.push(restore(memory(&own), [&bytes[..], &[0]].concat()));
                cases.push(restore(memory(&own), [&[3], &bytes[1..]].concat()));
                let mut wrong = bytes;
                *wrong.last_mut().expect("not empty") = 0xFF;
                cases.push(restore(memory(&own), wrong));
            }
            // Then in another order, with other modes, numbers and marks.
            file.meters.rotate_left(saved / 3);
            for (place, meter) in file.meters.iter_mut().enumerate() {
                meter.mode = Mode::ALL[place % 5];
                meter.number = NUMBERS[(place + 3) % NUMBERS.len()];
                meter.unsure = !meter.unsure;
            }
        }
    }
    cases
}

/// A meter that is held and in the file: both numbers and both marks, then a
/// number; and the same for a meter that the file brings.
fn numbers_and_marks() -> Vec<Case> {
    let one = |number: u32, unsure: bool| {
        let mut store = meters(0, 1);
        store.meters[0].number = number;
        store.meters[0].unsure = unsure;
        store
    };
    let mut cases = Vec::new();
    for number in NUMBERS {
        for unsure in [false, true] {
            let own = one(number, unsure);
            cases.push(issue(memory(&own), address(0)));
            for heard in NUMBERS {
                cases.push(hear(memory(&own), address(0), heard));
            }
            for version in Version::ALL {
                let file = own.file(version);
                cases.push(restore(memory(&Store::empty()), file.clone()));
                cases.push(restore(memory(&meters(1, 3)), file));
            }
            for saved in NUMBERS {
                for mark in [false, true] {
                    let file = one(saved, mark).file(Version::Two);
                    cases.push(restore(memory(&own), file));
                }
            }
        }
    }
    cases
}
