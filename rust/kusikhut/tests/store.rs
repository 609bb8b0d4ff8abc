//! The settings store over document 02, 9/14: its file byte by byte, every refusal, and what it promises, run.
use kusikhut::{Format, Meter, Mode, Refusal, Store, STORE_SIZE};
use std::fmt::Debug;

const CEN: [u8; 8] = [0xAE, 0x0C, 0x78, 0x56, 0x34, 0x12, 0x01, 0x07];

/// The refusal in the words of docs/RULES.md.
fn refused<T: Debug>(answer: Result<T, Refusal>) -> String {
    answer.expect_err("this is refused").to_string()
}

fn meter(k: u8) -> [u8; 8] {
    [k, 0, 0, 0, 0, 0, 0, 0]
}

/// A store of `count` meters, each sure and at its own number.
fn filled(count: u8) -> Store {
    let mut store = Store::empty();
    for k in 0..count {
        store.add(meter(k), Mode::C, Format::B).expect("there is room");
        store.hear(meter(k), 10 * u32::from(k)).expect("it is held");
    }
    store
}

#[test]
fn the_file_is_as_the_document_has_it() {
    let mut store = Store::empty();
    assert_eq!(store.bytes(), [2, 4, 0, 0, 0x40, 0, 1, 0]);
    store.set_allowance(0x01020304);
    store.add(CEN, Mode::F, Format::B).expect("there is room");
    store.hear(CEN, 0x0A0B0C0D).expect("it is held");
    let mut file = vec![2, 4, 1, 2, 3, 4, 1, 1, 8];
    file.extend(CEN);
    file.extend([1, 5, 1, 1, 4, 0x0A, 0x0B, 0x0C, 0x0D, 1, 0]);
    assert_eq!(store.bytes(), file);
    let mut exact = [0xEE; 29];
    assert_eq!((store.write(&mut exact), exact[28]), (Ok(28), 0xEE));
    assert_eq!(refused(store.write(&mut exact[..27])), "4 no-room");
    let held = Meter { address: CEN, mode: Mode::F, format: Format::B, number: 0x0A0B0C0D, unsure: false };
    assert_eq!((store.settings().allowance, store.settings().meters), (0x01020304, vec![held]));
}

#[test]
fn an_added_meter_waits_for_a_number_of_its_own() {
    let mut store = Store::empty();
    assert_eq!(refused(store.issue(CEN)), "19 not-held");
    assert_eq!(refused(store.hear(CEN, 7)), "19 not-held");
    assert_eq!(refused(store.look_up(CEN)), "19 not-held");
    assert_eq!(store.add(CEN, Mode::T, Format::A), Ok(()));
    assert_eq!(refused(store.issue(CEN)), "20 unsure");
    assert_eq!((store.hear(CEN, 0), store.issue(CEN), store.issue(CEN)), (Ok(()), Ok(1), Ok(2)));
    assert_eq!((store.hear(CEN, 1), store.issue(CEN)), (Ok(()), Ok(3)));
    // adding it again sets mode and format alone
    assert_eq!((store.add(CEN, Mode::C, Format::B), store.issue(CEN)), (Ok(()), Ok(4)));
    assert_eq!(store.look_up(CEN).map(|m| (m.mode, m.format)), Ok((Mode::C, Format::B)));
    assert_eq!(store.hear(CEN, u32::MAX - 1), Ok(()));
    assert_eq!((store.issue(CEN), refused(store.issue(CEN))), (Ok(u32::MAX), "21 numbers-used-up".into()));
}

#[test]
fn every_mode_and_format_comes_back() {
    let mut store = Store::empty();
    for mode in [Mode::R, Mode::S, Mode::T, Mode::C, Mode::N, Mode::F] {
        for format in [Format::A, Format::B] {
            store.add(CEN, mode, format).expect("it is held");
            assert_eq!(store.look_up(CEN).map(|m| (m.mode, m.format)), Ok((mode, format)));
        }
    }
}

#[test]
fn sixty_four_meters_and_no_more() {
    let mut store = filled(64);
    assert_eq!(store.bytes().len(), STORE_SIZE);
    assert_eq!(refused(store.add(meter(64), Mode::T, Format::A)), "22 store-full");
    assert_eq!(store.add(meter(63), Mode::T, Format::A), Ok(()));
    let meters = store.settings().meters;
    assert_eq!((meters.len(), meters[63].address, meters[63].mode, meters[63].number), (64, meter(63), Mode::T, 630));
    // restored into a full store: all of a file that brings no new meter, nothing of one that does
    let mut file = filled(40);
    file.set_allowance(5);
    assert_eq!((store.restore(&file.bytes()), store.allowance()), (Ok(()), 5));
    file.add(meter(99), Mode::T, Format::A).expect("there is room");
    file.set_allowance(6);
    let before = store.bytes();
    assert_eq!((refused(store.restore(&file.bytes())), store.bytes()), ("22 store-full".into(), before));
}

#[test]
fn a_file_that_is_no_store_changes_nothing() {
    let mut store = filled(3);
    let good = store.bytes();
    let with = |place: usize, byte: u8| {
        let mut file = good.clone();
        file[place] = byte;
        file
    };
    let twice = [&good[..8], &good[8..28], &good[8..28], &good[8..28]].concat();
    let (short, long) = (good[..good.len() - 1].to_vec(), [&good[..], &[0]].concat());
    let malformed = [
        ("empty", vec![]),
        ("one byte short", short),
        ("one byte over", long),
        ("the version alone", vec![2]),
        ("version 1 alone", vec![1]),
        ("a meter twice", twice),
        ("the allowance's length", with(1, 3)),
        ("the count's length", with(6, 2)),
        ("a count of 65", with(7, 65)),
        ("one meter too many", with(7, 4)),
        ("the address's length", with(8, 7)),
        ("mode 6", with(18, 6)),
        ("format 2", with(20, 2)),
        ("the number's length", with(21, 3)),
        ("mark 2", with(27, 2)),
    ];
    for (what, file) in malformed {
        assert_eq!(refused(store.restore(&file)), "17 malformed-store", "{what}");
    }
    for version in [0, 3, 255] {
        assert_eq!(refused(store.restore(&[version])), "18 unknown-version");
        assert_eq!(refused(store.restore(&with(0, version))), "18 unknown-version");
    }
    assert_eq!(store.bytes(), good);
}

#[test]
fn a_restore_keeps_the_larger_number_and_the_own_mark() {
    let mut store = filled(3);
    store.add(meter(7), Mode::T, Format::A).expect("there is room");
    // version 1, no allowance: meter 2 at 5 (20 is held), meter 7 at 9 and sure, meter 8 at 3 and sure
    let mut file = vec![1, 1, 3];
    for (k, number) in [(2, 5), (7, 9), (8, 3)] {
        file.push(8);
        file.extend(meter(k));
        file.extend([1, 1, 1, 0, 4, 0, 0, 0, number, 1, 0]);
    }
    store.set_allowance(1);
    assert_eq!((store.restore(&file), store.allowance()), (Ok(()), 16384));
    let told = |m: &Meter| (m.address[0], m.mode, m.number, m.unsure);
    let expected = [
        (0, Mode::C, 0, false),
        (1, Mode::C, 10, false),
        (2, Mode::S, 20, false),
        (7, Mode::S, 9, true),
        (8, Mode::S, 3, true),
    ];
    assert_eq!(store.settings().meters.iter().map(told).collect::<Vec<_>>(), expected);
}

/// Numbers below `below`, by xorshift.
fn random(mut state: u64) -> impl FnMut(usize) -> usize {
    move |below| {
        state ^= state << 13;
        state ^= state >> 7;
        state ^= state << 17;
        (state % below as u64) as usize
    }
}

/// The promise, run: over adds, hearings, restores of old backups and refused calls, each number is above all before.
#[test]
fn numbers_never_turn_back() {
    for seed in 1..=20 {
        let mut next = random(seed);
        let mut store = Store::empty();
        let mut backups = vec![store.bytes()];
        let mut above = [None; 5];
        let mut issued = 0;
        for _ in 0..500 {
            let k = next(5);
            match next(10) {
                0 => store.add(meter(k as u8), Mode::T, Format::A).expect("there is room"),
                1 => backups.push(store.bytes()),
                2 => store.restore(&backups[next(backups.len())]).expect("it was written by a store"),
                3 => {
                    let heard = next(40) as u32;
                    if store.hear(meter(k as u8), heard).is_ok() {
                        above[k] = above[k].max(Some(heard));
                    }
                }
                _ => match store.issue(meter(k as u8)) {
                    Ok(number) => {
                        assert!(above[k].is_some_and(|before| number > before), "seed {seed}: {number}, {above:?}");
                        above[k] = Some(number);
                        issued += 1;
                    }
                    Err(why) => assert_eq!(above[k], None, "seed {seed}: {why}"),
                },
            }
        }
        assert!(issued > 50, "few numbers were issued: this run shows less than it says");
    }
}

/// Restored into an empty store, every meter waits for a number of its own, and then is above all that the file knew.
#[test]
fn a_backup_alone_issues_nothing() {
    let (backup, mut store) = (filled(64).bytes(), Store::empty());
    store.restore(&backup).expect("it was written by a store");
    for k in 0..64 {
        assert_eq!(refused(store.issue(meter(k))), "20 unsure");
        store.hear(meter(k), 5).expect("it is held");
        assert_eq!(store.issue(meter(k)), Ok((10 * u32::from(k)).max(5) + 1));
    }
}
