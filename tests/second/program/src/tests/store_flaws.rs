//! Stores that are wrong on purpose: the comparison must notice each, and the
//! promise must be missed in those that break it, even where two agree.

use super::comparing::{Broken, Flaw, COUNT, SEED};
use crate::answer::{Answer, Refusal};
use crate::case::{Case, Operation};
use crate::chips::put;
use crate::compare::{compare, compare_cases};
use crate::generator::store_inputs;
use crate::implementation::{Implementation, Second, StoreCalls};
use crate::promise::Promise;
use crate::sequences::{cases_of, compare_sequences, CALLS};
use crate::store::{read_file, read_memory, Address, Store, Version, MEMORY, MOST_METERS};

/// Ways to be wrong with a store.
#[derive(Clone, Copy, Debug, PartialEq)]
pub enum StoreFlaw {
    /// Eight bytes of memory are enough for an empty store.
    EmptiesLess,
    /// Adding a held meter starts it again.
    AddStartsAgain,
    /// A full store refuses a meter that it holds.
    FullRefusesHeld,
    /// 22 before the 17 of a mode or format.
    FullBeforeList,
    /// A meter that is added stands in front.
    AddsInFront,
    /// The heard number replaces a larger one.
    HearReplaces,
    /// A smaller number that is heard does not clear the mark.
    SmallerKeepsMark,
    /// One number is issued and another one stored.
    IssueStoresAnother,
    /// 21 one too early.
    UsedUpTooEarly,
    /// 21 before 20.
    UsedUpBeforeUnsure,
    /// Behind the last number comes the first.
    IssueWraps,
    /// A refused issue has already moved the number on.
    IssueMovesWhenRefused,
    /// A new meter comes in with the file's mark.
    RestoreTakesMark,
    /// A held meter becomes unsure if the file has it.
    RestoreMarksHeld,
    /// The file's number replaces a larger one.
    RestoreTakesNumber,
    /// A held meter that is not in the file goes.
    RestoreForgets,
    /// What fits stays when 22 is answered.
    RestoreKeepsPart,
    /// New meters come before the held ones.
    RestorePutsNewFirst,
    /// Mode and format stay as they are held.
    RestoreKeepsMode,
    /// Bytes left over behind a file are accepted.
    LeftOverTaken,
    /// 22 before 17.
    FullBeforeMalformed,
    /// An empty file is of an unknown version.
    EmptyFileIs18,
    /// A file of another version is malformed if its fields are.
    FieldsBeforeVersion,
    /// A file of version 1 leaves the allowance as it was.
    VersionOneKeepsAllowance,
    /// Of a meter that stands twice in a file the first one counts.
    TwiceTaken,
    /// Every mark but 0 is unsure.
    AnyMarkTaken,
    /// On 4 the front of the file is written.
    WritesWhatFits,
    /// The backup says of every meter that it is sure.
    WritesSure,
    /// Addresses are compared without their last byte.
    LooksAtSevenBytes,
    /// Memory one byte too small will do.
    ShortMemory,
    /// Memory that is too small is malformed, whatever its version.
    SizeBeforeVersion,
    /// A store of version 1 will do as memory.
    VersionOneMemory,
    /// The allowance's lowest byte comes first.
    AllowanceTurned,
    /// Bytes behind the store are cleared.
    ClearsBehind,
}

impl Broken {
    fn has_store(&self, flaw: StoreFlaw) -> bool {
        self.0 == Flaw::Store(flaw)
    }
}

/// The store in a memory, changed.
fn change(memory: &mut [u8], change: impl FnOnce(&mut Store)) -> Answer {
    let mut store = read_memory(memory).unwrap();
    change(&mut store);
    let size = put(&store.file(Version::Two), memory).unwrap();
    Answer::accepted(&[size as u64])
}

fn refuse(refusal: Refusal) -> Answer {
    Answer::refused(refusal, 1, 0)
}

impl StoreCalls for Broken {
    fn store_empty(&self, store: &mut [u8]) -> Answer {
        if self.has_store(StoreFlaw::EmptiesLess) && (8..MEMORY).contains(&store.len()) {
            let size = put(&Store::empty().file(Version::Two), store).unwrap();
            return Answer::accepted(&[size as u64]);
        }
        Second.store_empty(store)
    }

    fn store_add(&self, store: &mut [u8], meter: Address, mode: u8, format: u8) -> Answer {
        let Ok(before) = read_memory(store) else {
            return Second.store_add(store, meter, mode, format);
        };
        let held = before.find(meter).is_some();
        let full = before.meters.len() == MOST_METERS;
        if self.has_store(StoreFlaw::FullBeforeList) && full && !held {
            return refuse(Refusal::StoreFull);
        }
        let answer = Second.store_add(store, meter, mode, format);
        if answer.number != 0 {
            return answer;
        }
        match self.0 {
            Flaw::Store(StoreFlaw::FullRefusesHeld) if full => {
                put(&before.file(Version::Two), store).unwrap();
                refuse(Refusal::StoreFull)
            }
            Flaw::Store(StoreFlaw::AddStartsAgain) if held => change(store, |store| {
                let again = store.meters.iter_mut().find(|one| one.address == meter);
                let again = again.unwrap();
                (again.number, again.unsure) = (0, true);
            }),
            Flaw::Store(StoreFlaw::AddsInFront) if !held => {
                change(store, |store| store.meters.rotate_right(1))
            }
            _ => answer,
        }
    }

    fn store_hear(&self, store: &mut [u8], meter: Address, number: u32) -> Answer {
        let before = read_memory(store).ok().and_then(|store| store.find(meter));
        let answer = Second.store_hear(store, meter, number);
        let Some(before) = before else {
            return answer;
        };
        let replaces = self.has_store(StoreFlaw::HearReplaces);
        let keeps_mark = self.has_store(StoreFlaw::SmallerKeepsMark) && number < before.number;
        change(store, |store| {
            let heard = store.meters.iter_mut().find(|one| one.address == meter);
            let heard = heard.unwrap();
            if replaces {
                heard.number = number;
            }
            if keeps_mark {
                heard.unsure = before.unsure;
            }
        })
    }

    fn store_issue(&self, store: &mut [u8], meter: Address) -> Answer {
        let before = read_memory(store).ok().and_then(|store| store.find(meter));
        let answer = Second.store_issue(store, meter);
        let Some(before) = before else {
            return answer;
        };
        let set = |store: &mut [u8], number: u32| {
            change(store, |store| {
                let held = store.meters.iter_mut().find(|one| one.address == meter);
                held.unwrap().number = number;
            });
        };
        match (self.0, answer.number) {
            (Flaw::Store(StoreFlaw::IssueStoresAnother), 0) => set(store, before.number),
            (Flaw::Store(StoreFlaw::UsedUpTooEarly), 0) if before.number == u32::MAX - 1 => {
                set(store, before.number);
                return refuse(Refusal::NumbersUsedUp);
            }
            (Flaw::Store(StoreFlaw::UsedUpBeforeUnsure), 20) if before.number == u32::MAX => {
                return refuse(Refusal::NumbersUsedUp);
            }
            (Flaw::Store(StoreFlaw::IssueWraps), 21) => {
                set(store, 0);
                return Answer::accepted(&[0]);
            }
            (Flaw::Store(StoreFlaw::IssueMovesWhenRefused), 20) => {
                set(store, before.number.saturating_add(1));
            }
            _ => {}
        }
        answer
    }

    fn store_restore(&self, store: &mut [u8], file: &[u8]) -> Answer {
        let Ok(own) = read_memory(store) else {
            return Second.store_restore(store, file);
        };
        let Flaw::Store(flaw) = self.0 else {
            return Second.store_restore(store, file);
        };
        if let Some(file) = misread(flaw, file) {
            return self.store_restore(store, &file);
        }
        let answer = Second.store_restore(store, file);
        let Ok(saved) = read_file(file) else {
            return misjudged(flaw, &own, file).map_or(answer, refuse);
        };
        if answer.number == 22 {
            if flaw == StoreFlaw::RestoreKeepsPart {
                let mut part = saved.clone();
                part.meters
                    .retain(|meter| own.find(meter.address).is_some());
                Second.store_restore(store, &part.file(Version::Two));
            }
            return answer;
        }
        change(store, |after| {
            wrongly_restored(flaw, &own, &saved, file, after)
        })
    }

    fn store_write(&self, store: &[u8], out: &mut [u8]) -> Answer {
        let answer = Second.store_write(store, out);
        if self.has_store(StoreFlaw::WritesWhatFits) && answer.number == 4 {
            out.copy_from_slice(&store[..out.len()]);
        }
        if self.has_store(StoreFlaw::WritesSure) && answer.number == 0 {
            let mut sure = read_memory(store).unwrap();
            for meter in &mut sure.meters {
                meter.unsure = false;
            }
            put(&sure.file(Version::Two), out).unwrap();
        }
        answer
    }

    fn store_look_up(&self, store: &[u8], meter: Address) -> Answer {
        let mut meter = meter;
        let mut store = store.to_vec();
        if self.has_store(StoreFlaw::LooksAtSevenBytes) {
            if let Ok(held) = read_memory(&store) {
                let mut same = held.meters.iter().map(|held| held.address);
                meter = same.find(|held| held[..7] == meter[..7]).unwrap_or(meter);
            }
        }
        if self.has_store(StoreFlaw::ShortMemory) && store.len() == MEMORY - 1 {
            store.push(0);
        }
        Second.store_look_up(&store, meter)
    }

    fn store_allowance(&self, store: &[u8]) -> Answer {
        let answer = Second.store_allowance(store);
        if self.has_store(StoreFlaw::SizeBeforeVersion) && store.len() < MEMORY {
            return refuse(Refusal::MalformedStore);
        }
        if self.has_store(StoreFlaw::VersionOneMemory) && answer.number == 18 && store[0] == 1 {
            // As if version 1 were judged like a file with bytes behind it.
            let fields = (0..store.len()).any(|length| read_file(&store[..length]).is_ok());
            if fields {
                return Answer::accepted(&[16_384]);
            }
        }
        answer
    }

    fn store_set_allowance(&self, store: &mut [u8], allowance: u32) -> Answer {
        let allowance = match self.has_store(StoreFlaw::AllowanceTurned) {
            true => allowance.swap_bytes(),
            false => allowance,
        };
        let answer = Second.store_set_allowance(store, allowance);
        if self.has_store(StoreFlaw::ClearsBehind) && answer.number == 0 {
            store[answer.row[0] as usize..].fill(0);
        }
        answer
    }
}

/// The file that a reader with this flaw takes this one for, if it takes it for
/// another.
fn misread(flaw: StoreFlaw, file: &[u8]) -> Option<Vec<u8>> {
    if read_file(file).is_ok() {
        return None;
    }
    let mut other = file.to_vec();
    match flaw {
        StoreFlaw::LeftOverTaken => {
            let fits = |length: &usize| read_file(&file[..*length]).is_ok();
            other.truncate((0..file.len()).find(fits)?);
        }
        StoreFlaw::TwiceTaken => {
            // The last meter goes, if it is one of those before it.
            let last = file.len().checked_sub(20).filter(|&last| last >= 28)?;
            let address = &file[last + 1..last + 9];
            let earlier = file[8..last]
                .chunks_exact(20)
                .any(|one| one[1..9] == *address);
            other.truncate(last);
            other[7] = other[7].checked_sub(1).filter(|_| earlier)?;
        }
        StoreFlaw::AnyMarkTaken => {
            let meters = if *file.first()? == 1 { 3 } else { 8 };
            for mark in other.iter_mut().skip(meters + 19).step_by(20) {
                *mark = (*mark).min(1);
            }
        }
        _ => return None,
    }
    read_file(&other).is_ok().then_some(other)
}

/// What a reader with this flaw gives for a file that is refused.
fn misjudged(flaw: StoreFlaw, own: &Store, file: &[u8]) -> Option<Refusal> {
    match flaw {
        StoreFlaw::FullBeforeMalformed => {
            let front = file.get(..file.len().checked_sub(1)?)?;
            own.restored(&read_file(front).ok()?).err()
        }
        StoreFlaw::EmptyFileIs18 if file.is_empty() => Some(Refusal::UnknownVersion),
        StoreFlaw::FieldsBeforeVersion => {
            let mut known = file.to_vec();
            *known.first_mut()? = 2;
            read_file(&known).err()
        }
        _ => None,
    }
}

/// What this flaw makes of an accepted restore.
fn wrongly_restored(flaw: StoreFlaw, own: &Store, saved: &Store, file: &[u8], after: &mut Store) {
    for meter in &mut after.meters {
        let Some(in_file) = saved.find(meter.address) else {
            continue;
        };
        match (flaw, own.find(meter.address)) {
            (StoreFlaw::RestoreTakesMark, None) => meter.unsure = in_file.unsure,
            (StoreFlaw::RestoreMarksHeld, Some(_)) => meter.unsure = true,
            (StoreFlaw::RestoreTakesNumber, Some(_)) => meter.number = in_file.number,
            (StoreFlaw::RestoreKeepsMode, Some(held)) => {
                (meter.mode, meter.format) = (held.mode, held.format);
            }
            _ => {}
        }
    }
    match flaw {
        StoreFlaw::RestoreForgets => {
            let in_file = |address| saved.find(address).is_some();
            after.meters.retain(|meter| in_file(meter.address));
        }
        StoreFlaw::RestorePutsNewFirst => after.meters.rotate_left(own.meters.len()),
        StoreFlaw::VersionOneKeepsAllowance if file[0] == 1 => after.allowance = own.allowance,
        _ => {}
    }
}

/// Every flaw, and the call in which it must show.
pub const FLAWS: [(StoreFlaw, Operation); 34] = [
    (StoreFlaw::EmptiesLess, Operation::StoreEmpty),
    (StoreFlaw::AddStartsAgain, Operation::StoreAdd),
    (StoreFlaw::FullRefusesHeld, Operation::StoreAdd),
    (StoreFlaw::FullBeforeList, Operation::StoreAdd),
    (StoreFlaw::AddsInFront, Operation::StoreAdd),
    (StoreFlaw::HearReplaces, Operation::StoreHear),
    (StoreFlaw::SmallerKeepsMark, Operation::StoreHear),
    (StoreFlaw::IssueStoresAnother, Operation::StoreIssue),
    (StoreFlaw::UsedUpTooEarly, Operation::StoreIssue),
    (StoreFlaw::UsedUpBeforeUnsure, Operation::StoreIssue),
    (StoreFlaw::IssueWraps, Operation::StoreIssue),
    (StoreFlaw::IssueMovesWhenRefused, Operation::StoreIssue),
    (StoreFlaw::RestoreTakesMark, Operation::StoreRestore),
    (StoreFlaw::RestoreMarksHeld, Operation::StoreRestore),
    (StoreFlaw::RestoreTakesNumber, Operation::StoreRestore),
    (StoreFlaw::RestoreForgets, Operation::StoreRestore),
    (StoreFlaw::RestoreKeepsPart, Operation::StoreRestore),
    (StoreFlaw::RestorePutsNewFirst, Operation::StoreRestore),
    (StoreFlaw::RestoreKeepsMode, Operation::StoreRestore),
    (StoreFlaw::LeftOverTaken, Operation::StoreRestore),
    (StoreFlaw::FullBeforeMalformed, Operation::StoreRestore),
    (StoreFlaw::EmptyFileIs18, Operation::StoreRestore),
    (StoreFlaw::FieldsBeforeVersion, Operation::StoreRestore),
    (StoreFlaw::VersionOneKeepsAllowance, Operation::StoreRestore),
    (StoreFlaw::TwiceTaken, Operation::StoreRestore),
    (StoreFlaw::AnyMarkTaken, Operation::StoreRestore),
    (StoreFlaw::WritesWhatFits, Operation::StoreWrite),
    (StoreFlaw::WritesSure, Operation::StoreWrite),
    (StoreFlaw::LooksAtSevenBytes, Operation::StoreLookUp),
    (StoreFlaw::ShortMemory, Operation::StoreLookUp),
    (StoreFlaw::SizeBeforeVersion, Operation::StoreAllowance),
    (StoreFlaw::VersionOneMemory, Operation::StoreAllowance),
    (StoreFlaw::AllowanceTurned, Operation::StoreSetAllowance),
    (StoreFlaw::ClearsBehind, Operation::StoreSetAllowance),
];

/// Those that break the promise.
pub const PROMISE_BREAKERS: [StoreFlaw; 7] = [
    StoreFlaw::AddStartsAgain,
    StoreFlaw::HearReplaces,
    StoreFlaw::IssueStoresAnother,
    StoreFlaw::IssueWraps,
    StoreFlaw::RestoreTakesMark,
    StoreFlaw::RestoreTakesNumber,
    StoreFlaw::RestoreForgets,
];

pub const SEQUENCES: u64 = 300;

pub fn broken(flaw: StoreFlaw) -> Broken {
    Broken(Flaw::Store(flaw))
}

/// The case alone shows that the two differ.
fn shows(case: &Case, flaw: StoreFlaw) -> bool {
    let again = Case::from_text(&case.to_string()).unwrap();
    again.run(&Second) != again.run(&broken(flaw))
}

#[test]
fn every_flaw_is_found_in_single_calls() {
    for (flaw, operation) in FLAWS {
        let found = compare(&Second, &broken(flaw), SEED, COUNT);
        let difference = found.expect_err(&format!("{flaw:?} was not found"));
        assert_eq!(difference.case.operation, operation, "{flaw:?}");
        assert!(shows(&difference.case, flaw), "{flaw:?}");
    }
}

#[test]
fn every_flaw_is_found_in_the_small_inputs() {
    for (flaw, operation) in FLAWS {
        let cases = store_inputs().filter(|case| case.operation == operation);
        let found = compare_cases(&Second, &broken(flaw), cases);
        assert!(found.is_err(), "{flaw:?} was not found");
    }
}

#[test]
fn every_flaw_is_found_in_sequences() {
    for (flaw, operation) in FLAWS {
        let found = compare_sequences(&Second, &broken(flaw), SEED, SEQUENCES);
        let trouble = found.expect_err(&format!("{flaw:?} was not found"));
        assert_eq!(trouble.why, "the two differ");
        assert_eq!(trouble.call.case.operation, operation, "{flaw:?}");
        // Both the printed line and the numbers of the sequence bring it up again.
        assert!(shows(&trouble.call.case, flaw), "{flaw:?}");
        let cases = cases_of(&Second, SEED, trouble.index);
        assert_eq!(cases.len() as u64, CALLS);
        assert_eq!(cases[trouble.call.index as usize], trouble.call.case);
        let text = trouble.to_string();
        assert!(text.contains(&format!("second sequence {SEED} {}", trouble.index)));
        assert!(text.contains(&trouble.call.case.to_string()));
    }
}

/// Both are wrong in the same way: only the promise can show it.
#[test]
fn a_broken_promise_is_found_where_both_agree() {
    for flaw in PROMISE_BREAKERS {
        let found = compare_sequences(&broken(flaw), &broken(flaw), SEED, SEQUENCES);
        let trouble = found.expect_err(&format!("{flaw:?} was not found"));
        assert!(trouble.why.contains("promise"), "{flaw:?}");
        assert_eq!(trouble.call.case.operation, Operation::StoreIssue);
        assert_eq!(trouble.call.first, trouble.call.second);
    }
}

#[test]
fn the_promise_by_hand() {
    let answered = |promise: &mut Promise, line: &str, number: u64, result: u64| {
        let mut answer = Answer::accepted(&[result]);
        answer.number = number;
        promise.answered(&Case::from_text(line).unwrap(), &answer)
    };
    let heard_5 = "store_hear store= meter=0102030405060708 number=5";
    let heard_3 = "store_hear store= meter=0102030405060708 number=3";
    let issued = "store_issue store= meter=0102030405060708";
    let other = "store_issue store= meter=0102030405060709";
    let mut promise = Promise::default();
    assert!(answered(&mut promise, issued, 0, 6).is_err());
    // What was refused was not heard.
    assert!(answered(&mut promise, heard_5, 19, 0).is_ok());
    assert!(answered(&mut promise, issued, 0, 6).is_err());
    assert!(answered(&mut promise, heard_5, 0, 28).is_ok());
    assert!(answered(&mut promise, heard_3, 0, 28).is_ok());
    assert!(answered(&mut promise, other, 0, 6).is_err());
    assert!(answered(&mut promise, issued, 0, 5).is_err());
    assert!(answered(&mut promise, issued, 0, 6).is_ok());
    assert!(answered(&mut promise, issued, 0, 6).is_err());
    assert!(answered(&mut promise, issued, 0, 1 << 32).is_err());
    assert!(answered(&mut promise, issued, 0, (1 << 32) - 1).is_ok());
    assert!(answered(&mut promise, issued, 21, 0).is_ok());
    assert!(answered(&mut promise, "store_empty store=", 0, 8).is_ok());
    assert!(answered(&mut promise, issued, 0, 7).is_err());
    assert!(answered(&mut promise, heard_3, 0, 28).is_ok());
    assert!(answered(&mut promise, issued, 0, 4).is_ok());
}

#[test]
fn sequences_meet_every_number() {
    let right = compare_sequences(&Second, &Broken(Flaw::None), SEED, SEQUENCES);
    let stats = right.unwrap_or_else(|trouble| panic!("{trouble}"));
    assert_eq!(stats.total(), SEQUENCES * CALLS);
    for operation in Operation::CALLS {
        if operation.of_store() {
            assert_eq!(stats.numbers(operation), operation.numbers());
        }
    }
    assert!(stats.count(Operation::StoreIssue, 0) > 1000);
    // The same seed makes the same calls, another seed or index others.
    let second: &dyn Implementation = &Second;
    assert_eq!(cases_of(second, 5, 1), cases_of(second, 5, 1));
    assert_ne!(cases_of(second, 5, 1), cases_of(second, 5, 2));
    assert_ne!(cases_of(second, 5, 1), cases_of(second, 6, 1));
}
