//! The settings store: 9/14's edges worked out by hand, its orders, and that what
//! was written is read back.

use super::bytes;
use crate::answer::Answer;
use crate::case::Operation;
use crate::frames::Format;
use crate::generator::case;
use crate::implementation::{Second, StoreCalls};
use crate::random::Random;
use crate::store::{read_file, read_memory, Address, Meter, Mode, Store, Version, MEMORY};

const X: Address = [0x43, 0x04, 0x78, 0x56, 0x34, 0x12, 0x01, 0x07];
const Y: Address = [0x43, 0x84, 0x78, 0x56, 0x34, 0x12, 0x01, 0x07];
const MOST: u32 = u32::MAX;

/// A meter in mode T and format A.
fn meter(address: Address, number: u32, unsure: bool) -> Meter {
    Meter {
        address,
        mode: Mode::T,
        format: Format::A,
        number,
        unsure,
    }
}

fn store(meters: &[Meter]) -> Store {
    Store {
        allowance: 16_384,
        meters: meters.to_vec(),
    }
}

/// Meters of which any two differ, from one number of them to another.
fn many(range: std::ops::Range<u8>) -> Store {
    let meters = range.map(|index| meter([index, 0, 0, 0, 0, 0, 0, 7], 5, false));
    store(&meters.collect::<Vec<_>>())
}

/// The least memory that holds a store, full of EEh behind it.
fn memory(store: &Store) -> Vec<u8> {
    let mut memory = vec![0xEE; MEMORY];
    let file = store.file(Version::Two);
    memory[..file.len()].copy_from_slice(&file);
    memory
}

fn is(answer: Answer, number: u64, result: u64) {
    assert_eq!((answer.number, answer.row), (number, vec![result]));
}

/// A refused call: its number, a zero, and every byte as before.
fn refused(memory: &[u8], number: u64, call: impl FnOnce(&mut [u8]) -> Answer) {
    let mut after = memory.to_vec();
    is(call(&mut after), number, 0);
    assert_eq!(after, memory);
}

/// The number of a file's refusal, or 0, by restoring it into an empty collector.
fn judged(file: &[u8]) -> u64 {
    let before = memory(&Store::empty());
    let mut after = before.clone();
    let answer = Second.store_restore(&mut after, file);
    if answer.number != 0 {
        assert_eq!((after, answer.row), (before, vec![0]));
    }
    answer.number
}

/// What is held of a meter: its number and mark.
fn held(memory: &[u8], address: Address) -> (u32, bool) {
    let answer = Second.store_look_up(memory, address);
    assert_eq!((answer.number, &answer.row[..2]), (0, &[2, 0][..]));
    (answer.row[2] as u32, answer.row[3] == 1)
}

// ------------------------------------------------------------------- the file

#[test]
fn a_file_byte_for_byte() {
    let mut store = store(&[meter(X, 1000, true), meter(Y, MOST, false)]);
    store.allowance = 0x0102_0304;
    store.meters[1].mode = Mode::F;
    store.meters[1].format = Format::B;
    let meters = "08 4304785634120107 01 02 01 00 04 000003E8 01 01
                  08 4384785634120107 01 05 01 01 04 FFFFFFFF 01 00";
    let two = bytes(&format!("02 04 01020304 01 02 {meters}"));
    let one = bytes(&format!("01 01 02 {meters}"));
    assert_eq!(store.file(Version::Two), two);
    assert_eq!(store.file(Version::One), one);
    assert_eq!(read_file(&two), Ok(store.clone()));
    store.allowance = 16_384;
    assert_eq!(read_file(&one), Ok(store));
}

#[test]
fn an_empty_store_has_eight_bytes() {
    let mut memory = vec![0xEE; MEMORY];
    is(Second.store_empty(&mut memory), 0, 8);
    assert_eq!(memory[..9], bytes("02 04 00004000 01 00 EE"));
    is(Second.store_allowance(&memory), 0, 16_384);
    assert_eq!(judged(&bytes("02 04 00004000 01 00")), 0);
    assert_eq!(judged(&bytes("01 01 00")), 0);
    assert_eq!(many(0..64).file(Version::Two).len(), 1288);
    assert_eq!(MEMORY, 1288);
}

#[test]
fn an_empty_file_is_17_and_else_the_version_comes_first() {
    assert_eq!(judged(&[]), 17);
    for version in [0, 3, 4, 0x12, 0x7F, 0x82, 0xFF] {
        assert_eq!(judged(&[version]), 18);
        assert_eq!(judged(&[version, 0xEE, 0xEE]), 18);
        for known in Version::ALL {
            let mut file = many(0..3).file(known);
            file[0] = version;
            assert_eq!(judged(&file), 18);
            file.push(0);
            assert_eq!(judged(&file), 18);
        }
    }
    assert_eq!(judged(&[1]), 17);
    assert_eq!(judged(&[2]), 17);
    // Each version has its own fields.
    let mut file = many(0..3).file(Version::Two);
    file[0] = 1;
    assert_eq!(judged(&file), 17);
    let mut file = many(0..3).file(Version::One);
    file[0] = 2;
    assert_eq!(judged(&file), 17);
}

#[test]
fn too_few_bytes_and_bytes_left_over_are_17() {
    for version in Version::ALL {
        for meters in [0, 1, 2, 64] {
            let mut file = many(0..meters).file(version);
            assert_eq!(judged(&file), 0);
            for length in 0..file.len() {
                assert_eq!(judged(&file[..length]), 17);
            }
            file.push(0);
            assert_eq!(judged(&file), 17);
            file.extend([0xEE; 19]);
            assert_eq!(judged(&file), 17);
        }
    }
}

#[test]
fn a_count_over_64_is_17() {
    for version in Version::ALL {
        let mut file = many(0..65).file(version);
        assert_eq!(judged(&file), 17);
        // With the count 64 the last meter is left over.
        let count = if version == Version::One { 2 } else { 7 };
        assert_eq!(file[count], 65);
        file[count] = 64;
        assert_eq!(judged(&file), 17);
        file.truncate(file.len() - 20);
        assert_eq!(judged(&file), 0);
        file[count] = 63;
        assert_eq!(judged(&file), 17);
        file[count] = 255;
        assert_eq!(judged(&file), 17);
    }
}

#[test]
fn every_length_byte_is_judged() {
    // Allowance, count; address, mode, format, number and mark of both meters.
    let places = [1, 6, 8, 17, 19, 21, 26, 28, 37, 39, 41, 46];
    let file = many(0..2).file(Version::Two);
    for place in places {
        assert!([1, 4, 8].contains(&file[place]));
        for wrong in (0..=255).filter(|&wrong| wrong != file[place]) {
            let mut file = file.clone();
            file[place] = wrong;
            assert_eq!(judged(&file), 17, "{place}: {wrong}");
        }
    }
}

#[test]
fn values_stand_in_their_lists() {
    let file = many(0..2).file(Version::Two);
    for meter in [8, 28] {
        for (place, values) in [(meter + 10, 6), (meter + 12, 2), (meter + 19, 2)] {
            for value in 0..=255 {
                let mut file = file.clone();
                file[place] = value;
                let expected = if value < values { 0 } else { 17 };
                assert_eq!(judged(&file), expected, "{place}: {value}");
            }
        }
    }
    // Allowance, address and number are free.
    for place in [2, 3, 4, 5, 9, 16, 22, 23, 24, 25] {
        for value in [0, 0x80, 0xFF] {
            let mut file = file.clone();
            file[place] = value;
            assert_eq!(judged(&file), 0, "{place}: {value}");
        }
    }
}

#[test]
fn a_meter_twice_is_17() {
    // In all but the address the two differ.
    let mut other = meter(X, 9, true);
    other.mode = Mode::C;
    for version in Version::ALL {
        assert_eq!(
            judged(&store(&[meter(X, 5, false), other]).file(version)),
            17
        );
        assert_eq!(judged(&store(&[other, other]).file(version)), 17);
        assert_eq!(
            judged(&store(&[other, meter(Y, 5, false), other]).file(version)),
            17
        );
        let mut last = many(0..64);
        last.meters[63].address = last.meters[0].address;
        assert_eq!(judged(&last.file(version)), 17);
        // One byte is enough for another meter.
        for place in 0..8 {
            other.address = X;
            other.address[place] ^= 0x80;
            assert_eq!(
                judged(&store(&[meter(X, 5, false), other]).file(version)),
                0
            );
        }
        other.address = X;
    }
}

// ------------------------------------------------------------------ the memory

/// The calls that judge the memory, each with arguments that would be refused.
const JUDGING: [fn(&mut [u8]) -> Answer; 8] = [
    |memory| Second.store_add(memory, X, 9, 9),
    |memory| Second.store_hear(memory, X, 1),
    |memory| Second.store_issue(memory, X),
    |memory| Second.store_restore(memory, &[9]),
    |memory| Second.store_write(memory, &mut []),
    |memory| Second.store_look_up(memory, X),
    |memory| Second.store_allowance(memory),
    |memory| Second.store_set_allowance(memory, 1),
];

#[test]
fn memory_is_judged_before_all_else() {
    let right = memory(&many(0..3));
    let changed = |place: usize, byte: u8| {
        let mut memory = right.clone();
        memory[place] = byte;
        memory
    };
    let mut twice = right.clone();
    twice.copy_within(8..28, 28);
    let mut version_1 = right.clone();
    let file = many(0..3).file(Version::One);
    version_1[..file.len()].copy_from_slice(&file);
    let wrong = [
        (17, right[..MEMORY - 1].to_vec()),
        (17, right[..68].to_vec()),
        (17, vec![2]),
        (17, Vec::new()),
        (18, changed(0, 3)[..MEMORY - 1].to_vec()),
        (18, version_1[..68].to_vec()),
        (18, vec![0]),
        (18, vec![1]),
        (18, changed(0, 0)),
        (18, changed(0, 1)),
        (18, changed(0, 3)),
        (18, vec![0xEE; MEMORY]),
        (18, version_1),
        (17, changed(1, 3)),
        (17, changed(6, 2)),
        (17, changed(7, 4)),
        (17, changed(7, 65)),
        (17, changed(8, 7)),
        (17, changed(18, 6)),
        (17, changed(20, 2)),
        (17, changed(27, 2)),
        (17, twice),
    ];
    for (number, memory) in wrong {
        for call in JUDGING {
            let mut after = memory.clone();
            let answer = call(&mut after);
            assert_eq!(answer.number, number);
            assert!(answer.row.iter().all(|&field| field == 0));
            assert_eq!(after, memory);
        }
    }
    // With the smaller count the third meter stands behind the store.
    let fewer = changed(7, 2);
    is(Second.store_allowance(&fewer), 0, 16_384);
    let third = many(2..3).meters[0].address;
    assert_eq!(Second.store_look_up(&fewer, third).number, 19);
}

#[test]
fn emptying_asks_for_the_whole_memory() {
    for length in [0, 7, 8, 9, MEMORY - 1] {
        refused(&vec![0xEE; length], 4, |memory| Second.store_empty(memory));
    }
    // What stood there is not judged, and stays behind the eight bytes.
    for length in [MEMORY, MEMORY + 1, 5000] {
        let mut memory = vec![0xEE; length];
        is(Second.store_empty(&mut memory), 0, 8);
        assert!(memory[8..].iter().all(|&byte| byte == 0xEE));
    }
    let mut full = memory(&many(0..64));
    let before = full.clone();
    is(Second.store_empty(&mut full), 0, 8);
    assert_eq!(full[8..], before[8..]);
}

#[test]
fn bytes_behind_stay_until_the_store_grows_over_them() {
    let mut memory = vec![0xEE; MEMORY + 5];
    Second.store_empty(&mut memory);
    for size in [28, 48] {
        let mut address = X;
        address[0] = size as u8;
        is(Second.store_add(&mut memory, address, 5, 1), 0, size as u64);
        is(
            Second.store_hear(&mut memory, address, MOST - 1),
            0,
            size as u64,
        );
        is(Second.store_issue(&mut memory, address), 0, MOST as u64);
        is(Second.store_set_allowance(&mut memory, 7), 0, size as u64);
        assert!(memory[size..].iter().all(|&byte| byte == 0xEE));
    }
    let file = many(0..62).file(Version::One);
    is(Second.store_restore(&mut memory, &file), 0, 1288);
    assert_eq!(memory[1288..], [0xEE; 5]);
    assert_eq!(read_memory(&memory).unwrap().meters.len(), 64);
}

#[test]
fn writing_asks_for_its_bytes_and_leaves_the_others() {
    for count in [0, 1, 64] {
        let store = many(0..count);
        let file = store.file(Version::Two);
        let size = file.len();
        let memory = memory(&store);
        let mut out = vec![0xDD; size + 3];
        is(Second.store_write(&memory, &mut out), 0, size as u64);
        assert_eq!((&out[..size], &out[size..]), (&file[..], &[0xDD; 3][..]));
        let mut out = vec![0xDD; size];
        is(Second.store_write(&memory, &mut out), 0, size as u64);
        assert_eq!(out, file);
        refused(&vec![0xDD; size - 1], 4, |out| {
            Second.store_write(&memory, out)
        });
        refused(&[], 4, |out| Second.store_write(&memory, out));
    }
}

// ------------------------------------------------------- adding, hearing, issuing

#[test]
fn an_added_meter_starts_unsure_at_0() {
    let mut memory = memory(&Store::empty());
    is(Second.store_add(&mut memory, X, 2, 0), 0, 28);
    assert_eq!(held(&memory, X), (0, true));
    refused(&memory, 20, |memory| Second.store_issue(memory, X));
    refused(&memory, 19, |memory| Second.store_issue(memory, Y));
    refused(&memory, 19, |memory| Second.store_hear(memory, Y, 3));
    let not_held = Second.store_look_up(&memory, Y);
    assert_eq!((not_held.number, not_held.row), (19, vec![0; 4]));
    is(Second.store_hear(&mut memory, X, 0), 0, 28);
    assert_eq!(held(&memory, X), (0, false));
    is(Second.store_issue(&mut memory, X), 0, 1);
    is(Second.store_issue(&mut memory, X), 0, 2);
    assert_eq!(held(&memory, X), (2, false));
}

#[test]
fn adding_a_held_meter_sets_mode_and_format_alone() {
    let mut memory = memory(&store(&[meter(X, 12, false), meter(Y, 13, true)]));
    is(Second.store_add(&mut memory, X, 5, 1), 0, 48);
    is(Second.store_add(&mut memory, Y, 0, 1), 0, 48);
    let look = |address| Second.store_look_up(&memory, address).row;
    assert_eq!(look(X), [5, 1, 12, 0]);
    assert_eq!(look(Y), [0, 1, 13, 1]);
}

#[test]
fn modes_and_formats_outside_their_lists() {
    let empty = memory(&Store::empty());
    for (mode, format) in [(6, 0), (0, 2), (255, 0), (5, 255), (6, 2)] {
        refused(&empty, 17, |memory| {
            Second.store_add(memory, X, mode, format)
        });
        // Before 22, and of a held meter, too.
        let full = memory(&many(0..64));
        refused(&full, 17, |memory| {
            Second.store_add(memory, X, mode, format)
        });
        let held = many(0..1).meters[0].address;
        refused(&full, 17, |memory| {
            Second.store_add(memory, held, mode, format)
        });
    }
    for mode in 0..6 {
        for format in 0..2 {
            // Not every mode has both formats, but 9/14 does not judge that.
            let mut memory = empty.clone();
            is(Second.store_add(&mut memory, X, mode, format), 0, 28);
            let row = Second.store_look_up(&memory, X).row;
            assert_eq!(row, [mode as u64, format as u64, 0, 1]);
        }
    }
}

#[test]
fn a_full_store() {
    let full = memory(&many(0..64));
    refused(&full, 22, |memory| Second.store_add(memory, X, 0, 0));
    let mut memory = full.clone();
    let last = many(63..64).meters[0].address;
    is(Second.store_add(&mut memory, last, 4, 1), 0, 1288);
    assert_eq!(Second.store_look_up(&memory, last).row, [4, 1, 5, 0]);
    let mut almost = self::memory(&many(0..63));
    is(Second.store_add(&mut almost, X, 0, 0), 0, 1288);
    assert_eq!(Second.store_look_up(&almost, X).row, [0, 0, 0, 1]);
}

#[test]
fn hearing_keeps_the_larger_number() {
    for unsure in [false, true] {
        for (heard, kept) in [(0, 7), (6, 7), (7, 7), (8, 8), (MOST, MOST)] {
            let mut memory = memory(&store(&[meter(Y, 1, true), meter(X, 7, unsure)]));
            is(Second.store_hear(&mut memory, X, heard), 0, 48);
            assert_eq!(held(&memory, X), (kept, false));
            assert_eq!(held(&memory, Y), (1, true));
        }
    }
}

#[test]
fn numbers_are_used_up_at_the_last() {
    let mut memory = memory(&store(&[meter(X, 0, true)]));
    Second.store_hear(&mut memory, X, MOST - 2);
    is(Second.store_issue(&mut memory, X), 0, MOST as u64 - 1);
    is(Second.store_issue(&mut memory, X), 0, MOST as u64);
    refused(&memory, 21, |memory| Second.store_issue(memory, X));
    assert_eq!(held(&memory, X), (MOST, false));
    Second.store_hear(&mut memory, X, 3);
    refused(&memory, 21, |memory| Second.store_issue(memory, X));
    // Unsure and used up: 20 comes first.
    let unsure = self::memory(&store(&[meter(X, MOST, true)]));
    refused(&unsure, 20, |memory| Second.store_issue(memory, X));
    let mut memory = self::memory(&store(&[meter(X, 0, true)]));
    Second.store_hear(&mut memory, X, MOST);
    refused(&memory, 21, |memory| Second.store_issue(memory, X));
}

// -------------------------------------------------------------------- restoring

#[test]
fn a_restore_into_an_empty_collector_marks_all_unsure() {
    let saved = store(&[meter(X, 1000, false), meter(Y, 2000, true)]);
    for version in Version::ALL {
        let mut memory = memory(&Store::empty());
        is(
            Second.store_restore(&mut memory, &saved.file(version)),
            0,
            48,
        );
        assert_eq!(held(&memory, X), (1000, true));
        assert_eq!(held(&memory, Y), (2000, true));
        refused(&memory, 20, |memory| Second.store_issue(memory, X));
        // A small number is heard: the file's is the larger.
        Second.store_hear(&mut memory, X, 3);
        is(Second.store_issue(&mut memory, X), 0, 1001);
        refused(&memory, 20, |memory| Second.store_issue(memory, Y));
        Second.store_hear(&mut memory, Y, 2005);
        is(Second.store_issue(&mut memory, Y), 0, 2006);
    }
}

#[test]
fn a_restore_into_a_running_collector_keeps_marks_and_larger_numbers() {
    for own in [0, 7, MOST] {
        for saved in [0, 6, 7, 8, MOST] {
            for own_mark in [false, true] {
                for saved_mark in [false, true] {
                    let mut memory = memory(&store(&[meter(X, own, own_mark)]));
                    let file = store(&[meter(X, saved, saved_mark)]).file(Version::Two);
                    is(Second.store_restore(&mut memory, &file), 0, 28);
                    assert_eq!(held(&memory, X), (own.max(saved), own_mark));
                }
            }
        }
    }
}

#[test]
fn a_restore_takes_all_else_from_the_file() {
    let mut saved = store(&[meter(Y, 1, false), meter(X, 9, true)]);
    saved.allowance = 77;
    saved.meters[1].mode = Mode::N;
    saved.meters[1].format = Format::B;
    let mut own = many(0..2);
    own.allowance = 88;
    own.meters.push(meter(X, 12, false));
    let mut memory = memory(&own);
    let file = saved.file(Version::Two);
    is(Second.store_restore(&mut memory, &file), 0, 88);
    is(Second.store_allowance(&memory), 0, 77);
    // Held meters keep their places; those not in the file stay as they are.
    let after = read_memory(&memory).unwrap();
    assert_eq!(after.meters[..2], many(0..2).meters);
    let mut x = meter(X, 12, false);
    (x.mode, x.format) = (Mode::N, Format::B);
    assert_eq!(after.meters[2..], [x, meter(Y, 1, true)]);
    // Version 1 means 16,384, whatever the store had.
    let file = saved.file(Version::One);
    is(Second.store_restore(&mut memory, &file), 0, 88);
    is(Second.store_allowance(&memory), 0, 16_384);
    // A file without meters sets the allowance and takes nothing away.
    let mut without = Store::empty();
    without.allowance = MOST;
    let file = without.file(Version::Two);
    is(Second.store_restore(&mut memory, &file), 0, 88);
    is(Second.store_allowance(&memory), 0, MOST as u64);
    assert_eq!(read_memory(&memory).unwrap().meters, after.meters);
}

#[test]
fn new_meters_follow_in_the_order_of_the_file() {
    let mut saved = many(10..20);
    saved.meters.reverse();
    saved.meters.insert(4, many(1..2).meters[0]);
    let mut memory = memory(&many(0..3));
    Second.store_restore(&mut memory, &saved.file(Version::One));
    let after = read_memory(&memory).unwrap();
    let first_bytes: Vec<u8> = after.meters.iter().map(|meter| meter.address[0]).collect();
    assert_eq!(
        first_bytes,
        [0, 1, 2, 19, 18, 17, 16, 15, 14, 13, 12, 11, 10]
    );
}

#[test]
fn over_64_together_is_22_and_changes_nothing() {
    // Held, in the file, and the first of the file's: so many in common.
    for (held, first, last, number) in [
        (40, 34, 64, 0),
        (40, 35, 65, 22),
        (64, 0, 64, 0),
        (64, 63, 65, 22),
        (64, 64, 65, 22),
        (63, 63, 64, 0),
        (63, 62, 64, 0),
        (63, 63, 65, 22),
        (1, 1, 65, 22),
        (1, 0, 64, 0),
        (0, 0, 64, 0),
    ] {
        for version in Version::ALL {
            let mut saved = many(first..last);
            saved.allowance = 3;
            for meter in &mut saved.meters {
                meter.number = 900;
            }
            let file = saved.file(version);
            let before = memory(&many(0..held));
            if number == 0 {
                let mut memory = before.clone();
                is(Second.store_restore(&mut memory, &file), 0, 1288);
            } else {
                refused(&before, number, |memory| {
                    Second.store_restore(memory, &file)
                });
            }
        }
    }
}

#[test]
fn a_restore_refuses_17_and_18_before_22() {
    let full = memory(&many(0..64));
    let mut file = many(100..102).file(Version::Two);
    refused(&full, 22, |memory| Second.store_restore(memory, &file));
    file.push(0);
    refused(&full, 17, |memory| Second.store_restore(memory, &file));
    file[0] = 3;
    refused(&full, 18, |memory| Second.store_restore(memory, &file));
    refused(&full, 17, |memory| Second.store_restore(memory, &[]));
    // A malformed last meter: the first ones are not taken either.
    let few = memory(&many(0..2));
    let mut file = many(100..104).file(Version::Two);
    *file.last_mut().unwrap() = 2;
    refused(&few, 17, |memory| Second.store_restore(memory, &file));
}

#[test]
fn own_backups_never_turn_a_number_back() {
    let mut memory = memory(&Store::empty());
    Second.store_add(&mut memory, X, 2, 0);
    Second.store_hear(&mut memory, X, 10);
    is(Second.store_issue(&mut memory, X), 0, 11);
    let mut backup = vec![0; 28];
    is(Second.store_write(&memory, &mut backup), 0, 28);
    is(Second.store_issue(&mut memory, X), 0, 12);
    is(Second.store_issue(&mut memory, X), 0, 13);
    is(Second.store_restore(&mut memory, &backup), 0, 28);
    is(Second.store_issue(&mut memory, X), 0, 14);
    // Into a collector that was emptied: nothing until a number is heard.
    Second.store_empty(&mut memory);
    is(Second.store_restore(&mut memory, &backup), 0, 28);
    is(Second.store_restore(&mut memory, &backup), 0, 28);
    refused(&memory, 20, |memory| Second.store_issue(memory, X));
    Second.store_hear(&mut memory, X, 14);
    is(Second.store_issue(&mut memory, X), 0, 15);
}

#[test]
fn allowances_are_read_and_set() {
    let mut memory = memory(&many(0..1));
    for allowance in [0, 1, 0x0102_0304, MOST] {
        is(Second.store_set_allowance(&mut memory, allowance), 0, 28);
        is(Second.store_allowance(&memory), 0, allowance as u64);
        assert_eq!(memory[2..6], allowance.to_be_bytes());
    }
}

// ------------------------------------------------------------- on seeded inputs

const STORE_CALLS: [Operation; 9] = [
    Operation::StoreEmpty,
    Operation::StoreAdd,
    Operation::StoreHear,
    Operation::StoreIssue,
    Operation::StoreRestore,
    Operation::StoreWrite,
    Operation::StoreLookUp,
    Operation::StoreAllowance,
    Operation::StoreSetAllowance,
];

#[test]
fn what_was_written_is_read_back() {
    let mut random = Random::new(14);
    let mut read = 0;
    for _ in 0..800 {
        let case = case(&mut random, Operation::StoreWrite);
        let outcome = case.run(&Second);
        if outcome.answer.number != 0 {
            continue;
        }
        let file = &outcome.lent[..outcome.answer.row[0] as usize];
        let store = read_memory(case.bytes("store")).unwrap();
        assert_eq!(read_file(file), Ok(store.clone()));
        let mut of_version_1 = store.clone();
        of_version_1.allowance = 16_384;
        assert_eq!(read_file(&store.file(Version::One)), Ok(of_version_1));
        // An empty collector becomes the same, but for the marks.
        let mut memory = memory(&Store::empty());
        assert_eq!(Second.store_restore(&mut memory, file).number, 0);
        let mut unsure = store.clone();
        for meter in &mut unsure.meters {
            meter.unsure = true;
        }
        assert_eq!(read_memory(&memory), Ok(unsure));
        read += 1;
    }
    assert!(read > 200);
}

#[test]
fn a_refused_call_changes_nothing() {
    let mut random = Random::new(15);
    for operation in STORE_CALLS {
        for _ in 0..600 {
            let case = case(&mut random, operation);
            let outcome = case.run(&Second);
            if outcome.answer.number == 0 {
                continue;
            }
            assert!(outcome.answer.row.iter().all(|&field| field == 0));
            let lent = match operation {
                Operation::StoreWrite => case.bytes("out"),
                Operation::StoreLookUp | Operation::StoreAllowance => &[],
                _ => case.bytes("store"),
            };
            assert_eq!(outcome.lent, lent);
        }
    }
}
