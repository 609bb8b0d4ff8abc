//! Cases of the settings store (9/14), one call each.

use super::bytes::any_format;
use super::{number, output_for};
use crate::case::Argument;
use crate::random::Random;
use crate::store::{Address, Meter, Mode, Store, Version, MEMORY, MOST_METERS};

/// How many meters there are: so few that two stores have some in common, and
/// more than a store holds.
pub const METERS: usize = 96;

/// The address of one of them. Each differs from one common address in a single
/// byte, so that two differ in one or two: a comparison that leaves out a byte
/// takes some for the same.
pub fn address(index: usize) -> Address {
    let mut address = [0x43, 0x04, 0x10, 0x20, 0x30, 0x40, 0x01, 0x07];
    address[index % 8] += 1 + (index / 8) as u8;
    address
}

/// Numbers and allowances at the edges.
pub const NUMBERS: [u32; 10] = [
    0,
    1,
    2,
    0xFF,
    0x1_00FE,
    0x0102_0304,
    0x7FFF_FFFF,
    u32::MAX - 2,
    u32::MAX - 1,
    u32::MAX,
];

pub fn any_number(random: &mut Random) -> u32 {
    if random.once_in(2) {
        random.pick(&NUMBERS)
    } else {
        (random.number() >> 20) as u32
    }
}

pub fn any_meter(random: &mut Random, address: Address) -> Meter {
    Meter {
        address,
        mode: random.pick(&Mode::ALL),
        format: any_format(random),
        number: any_number(random),
        unsure: random.once_in(2),
    }
}

/// A store of so many of the meters, in any order.
pub fn store_of(random: &mut Random, count: usize) -> Store {
    store_among(random, METERS, count)
}

/// The same, of the first ones only.
pub fn store_among(random: &mut Random, meters: usize, count: usize) -> Store {
    let mut indices: Vec<usize> = (0..meters).collect();
    let mut store = Store::empty();
    for _ in 0..count {
        let index = indices.swap_remove(random.below(indices.len()));
        store.meters.push(any_meter(random, address(index)));
    }
    if !random.once_in(4) {
        store.allowance = any_number(random);
    }
    store
}

/// Of any size, often the smallest or the largest.
pub fn any_store(random: &mut Random) -> Store {
    let count = match random.below(8) {
        0 => 0,
        1 => 1,
        2 => 2,
        3 => MOST_METERS - 1,
        4 => MOST_METERS,
        _ => random.below(MOST_METERS + 1),
    };
    store_of(random, count)
}

/// Memory that begins with these bytes. What stands behind is anything, or what
/// a fuller store has left there, which looks like more meters.
pub fn memory_with(random: &mut Random, front: &[u8]) -> Vec<u8> {
    let mut memory = Vec::new();
    if random.once_in(2) {
        memory = store_of(random, MOST_METERS).file(Version::Two);
    }
    let length = MEMORY + random.pick(&[0, 0, 1, 40]);
    memory.extend(random.bytes(length - memory.len()));
    memory[..front.len()].copy_from_slice(front);
    memory
}

// ------------------------------------------------------------ wrong on purpose

/// What stands at a place of a file whose value is not free.
#[derive(Clone, Copy, Debug, PartialEq, Eq)]
pub enum Part {
    Version,
    Length,
    Count,
    /// A value below this one.
    Below(u8),
}

/// The places of a file whose value is not free.
pub fn parts(version: Version, meters: usize) -> Vec<(usize, Part)> {
    let mut parts = vec![(0, Part::Version)];
    let mut place = 1;
    let mut field = |length: usize, value: Option<Part>| {
        parts.push((place, Part::Length));
        parts.extend(value.map(|part| (place + 1, part)));
        place += 1 + length;
    };
    if version == Version::Two {
        field(4, None);
    }
    field(1, Some(Part::Count));
    for _ in 0..meters {
        field(8, None);
        field(1, Some(Part::Below(6)));
        field(1, Some(Part::Below(2)));
        field(4, None);
        field(1, Some(Part::Below(2)));
    }
    parts
}

/// Values that are wrong at such a place, where this one is right.
pub fn wrong_values(part: Part, right: u8) -> Vec<u8> {
    let mut values = match part {
        Part::Version => vec![0, 1, 2, 3, 0x82, 0xFF],
        Part::Length => vec![0, 1, 2, 3, 4, 5, 7, 8, 9, 0x80 + right, 0xFF],
        Part::Count => vec![
            right.wrapping_sub(1),
            right + 1,
            0,
            64,
            65,
            66,
            0x80 + right,
            0xFF,
        ],
        Part::Below(limit) => vec![limit, limit + 1, 0x80 + right, 0xFF],
    };
    values.retain(|&value| value != right);
    values
}

/// Where a meter begins in a file.
pub fn meter_place(version: Version, index: usize) -> usize {
    let front = match version {
        Version::One => 3,
        Version::Two => 8,
    };
    front + 20 * index
}

/// The same file with the address of one meter at another's, too.
pub fn with_twice(file: &[u8], version: Version, one: usize, other: usize) -> Vec<u8> {
    let from = meter_place(version, one) + 1;
    let to = meter_place(version, other) + 1;
    let mut file = file.to_vec();
    file.copy_within(from..from + 8, to);
    file
}

/// One value wrong, a meter twice, or another version.
fn spoil_in_place(random: &mut Random, file: &mut Vec<u8>, version: Version, meters: usize) {
    match random.below(5) {
        0 if meters > 1 => {
            let one = random.below(meters);
            let other = (one + 1 + random.below(meters - 1)) % meters;
            *file = with_twice(file, version, one, other);
        }
        1 => file[0] = random.pick(&[0, 1, 2, 3, 0xFF]),
        2 => file[0] = random.byte(),
        _ => {
            let (place, part) = random.pick(&parts(version, meters));
            file[place] = random.pick(&wrong_values(part, file[place]));
        }
    }
}

/// A file that is perhaps none any more.
pub fn spoil_file(random: &mut Random, file: &mut Vec<u8>, version: Version, meters: usize) {
    match random.below(10) {
        0 => file.clear(),
        1 => file.truncate(random.below(file.len())),
        2 => file.truncate(file.len() - 1),
        3 => file.push(random.byte()),
        4 => {
            let more = 1 + random.below(30);
            file.extend(random.bytes(more));
        }
        5 => {
            // One byte too many or too few within.
            let place = random.below(file.len());
            if random.once_in(2) {
                file.insert(place, random.byte());
            } else {
                file.remove(place);
            }
        }
        _ => spoil_in_place(random, file, version, meters),
    }
}

/// Memory that is perhaps no store.
pub fn spoil_memory(random: &mut Random, store: &Store) -> Vec<u8> {
    let mut front = store.file(Version::Two);
    match random.below(8) {
        0 => front.clear(),
        1 => front = store.file(Version::One),
        2..=3 => {}
        _ => spoil_in_place(random, &mut front, Version::Two, store.meters.len()),
    }
    let mut memory = memory_with(random, &front);
    match random.below(8) {
        0..=1 => memory.truncate(MEMORY - 1),
        2 => memory.truncate(random.below(MEMORY)),
        _ => {}
    }
    memory
}

// -------------------------------------------------------------------- the calls

/// A store and its memory, which is spoiled now and then.
fn store_in_memory(random: &mut Random) -> (Store, Vec<u8>) {
    let store = any_store(random);
    let memory = if random.once_in(4) {
        spoil_memory(random, &store)
    } else {
        memory_with(random, &store.file(Version::Two))
    };
    (store, memory)
}

/// A meter to ask for: mostly one that is held, else any of them or almost one.
pub fn wanted(random: &mut Random, store: &Store) -> Address {
    if store.meters.is_empty() || random.once_in(4) {
        return address(random.below(METERS));
    }
    let last = store.meters.len() - 1;
    let place = match random.below(4) {
        0 => 0,
        1 => last,
        _ => random.below(last + 1),
    };
    let mut wanted = store.meters[place].address;
    if random.once_in(8) {
        wanted[random.below(8)] ^= 1 << random.below(8);
    }
    wanted
}

/// A file of either version, as it should be.
pub fn file_of(random: &mut Random, store: &Store) -> (Vec<u8>, Version) {
    let version = random.pick(&Version::ALL);
    (store.file(version), version)
}

pub fn empty(random: &mut Random) -> Vec<Argument> {
    let length = match random.below(8) {
        0 => random.below(20),
        1 => MEMORY - 1,
        2 => random.below(MEMORY),
        3 => MEMORY,
        _ => return vec![store_in_memory(random).1.into()],
    };
    vec![random.bytes(length).into()]
}

/// A mode and a format to be set; now and then one of them outside its list.
pub fn mode_and_format(random: &mut Random) -> (u8, u8) {
    let mut mode = random.below(6) as u8;
    let mut format = random.below(2) as u8;
    match random.below(24) {
        0 => mode = 6,
        1 => mode = random.byte(),
        2 => format = 2,
        3 => format = random.byte(),
        _ => {}
    }
    (mode, format)
}

pub fn add(random: &mut Random) -> Vec<Argument> {
    let (store, memory) = store_in_memory(random);
    let meter = if random.once_in(2) {
        address(random.below(METERS))
    } else {
        wanted(random, &store)
    };
    let (mode, format) = mode_and_format(random);
    vec![
        memory.into(),
        meter.to_vec().into(),
        number(mode),
        number(format),
    ]
}

pub fn hear(random: &mut Random) -> Vec<Argument> {
    let (store, memory) = store_in_memory(random);
    let meter = wanted(random, &store);
    let heard = match store.find(meter) {
        Some(held) if random.once_in(2) => {
            let near = [
                held.number.saturating_sub(1),
                held.number,
                held.number.saturating_add(1),
            ];
            random.pick(&near)
        }
        _ => any_number(random),
    };
    vec![memory.into(), meter.to_vec().into(), number(heard)]
}

/// For issuing and for looking up.
pub fn of_a_meter(random: &mut Random) -> Vec<Argument> {
    let (store, memory) = store_in_memory(random);
    let meter = wanted(random, &store);
    vec![memory.into(), meter.to_vec().into()]
}

pub fn restore(random: &mut Random) -> Vec<Argument> {
    let (store, memory) = store_in_memory(random);
    let saved = match random.below(6) {
        // The store's own backup, taken before other numbers were heard.
        0 => {
            let mut saved = store.clone();
            for meter in &mut saved.meters {
                if random.once_in(2) {
                    *meter = any_meter(random, meter.address);
                }
            }
            saved
        }
        _ => any_store(random),
    };
    let (mut file, version) = file_of(random, &saved);
    if random.once_in(3) {
        spoil_file(random, &mut file, version, saved.meters.len());
    }
    vec![memory.into(), file.into()]
}

pub fn write(random: &mut Random) -> Vec<Argument> {
    let (store, memory) = store_in_memory(random);
    let out = output_for(random, store.file(Version::Two).len());
    vec![memory.into(), out.into()]
}

pub fn allowance(random: &mut Random) -> Vec<Argument> {
    vec![store_in_memory(random).1.into()]
}

pub fn set_allowance(random: &mut Random) -> Vec<Argument> {
    let (_, memory) = store_in_memory(random);
    vec![memory.into(), number(any_number(random))]
}
