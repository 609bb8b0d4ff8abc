//! Stores that keep their memory to themselves: made of the calls, right ones and
//! ones that are wrong on purpose.

use super::comparing::{Broken, Flaw, SEED};
use super::store_flaws::{broken, StoreFlaw, FLAWS, PROMISE_BREAKERS, SEQUENCES};
use crate::answer::Answer;
use crate::case::Operation;
use crate::hidden::{compare_hidden, Asked, HiddenStore};
use crate::implementation::{Second, StoreCalls};
use crate::store::{read_memory, Store, MEMORY};

/// What only damaged memory can show, a mode outside its list, or the bytes behind
/// a store.
const UNSEEN: [StoreFlaw; 6] = [
    StoreFlaw::EmptiesLess,
    StoreFlaw::FullBeforeList,
    StoreFlaw::ShortMemory,
    StoreFlaw::SizeBeforeVersion,
    StoreFlaw::VersionOneMemory,
    StoreFlaw::ClearsBehind,
];

struct Hidden {
    calls: Broken,
    memory: Vec<u8>,
}

impl Hidden {
    fn empty(calls: Broken) -> Hidden {
        let mut memory = vec![0; MEMORY];
        assert_eq!(calls.store_empty(&mut memory).number, 0);
        Hidden { calls, memory }
    }
}

impl HiddenStore for Hidden {
    fn answer(&mut self, asked: Asked) -> Answer {
        let (calls, memory) = (&self.calls, &mut self.memory[..]);
        match asked {
            Asked::Add(meter, mode, format) => {
                calls.store_add(memory, meter, mode as u8, format as u8)
            }
            Asked::Hear(meter, number) => calls.store_hear(memory, meter, number),
            Asked::Issue(meter) => calls.store_issue(memory, meter),
            Asked::Restore(file) => calls.store_restore(memory, file),
            Asked::Write(out) => calls.store_write(memory, out),
            Asked::LookUp(meter) => calls.store_look_up(memory, meter),
            Asked::Allowance => calls.store_allowance(memory),
            Asked::SetAllowance(allowance) => calls.store_set_allowance(memory, allowance),
        }
    }

    fn file(&self) -> Vec<u8> {
        let mut file = vec![0; MEMORY];
        let size = self.calls.store_write(&self.memory, &mut file).row[0];
        file.truncate(size as usize);
        file
    }

    fn settings(&self) -> Store {
        read_memory(&self.memory).unwrap()
    }
}

/// Every number that needs no damaged memory.
#[test]
fn hidden_stores_meet_every_number() {
    let right = compare_hidden(
        || Hidden::empty(Broken(Flaw::None)),
        &Second,
        SEED,
        SEQUENCES,
    );
    let stats = right.unwrap_or_else(|trouble| panic!("{trouble}"));
    let numbers = |operation| stats.numbers(operation);
    assert_eq!(numbers(Operation::StoreEmpty), [0]);
    assert_eq!(numbers(Operation::StoreAdd), [0, 22]);
    assert_eq!(numbers(Operation::StoreHear), [0, 19]);
    assert_eq!(numbers(Operation::StoreIssue), [0, 19, 20, 21]);
    assert_eq!(numbers(Operation::StoreRestore), [0, 17, 18, 22]);
    assert_eq!(numbers(Operation::StoreWrite), [0, 4]);
    assert_eq!(numbers(Operation::StoreLookUp), [0, 19]);
    assert_eq!(numbers(Operation::StoreAllowance), [0]);
    assert_eq!(numbers(Operation::StoreSetAllowance), [0]);
}

#[test]
fn every_flaw_is_found_in_hidden_stores() {
    for (flaw, operation) in FLAWS {
        let found = compare_hidden(|| Hidden::empty(broken(flaw)), &Second, SEED, SEQUENCES);
        if UNSEEN.contains(&flaw) {
            assert!(found.is_ok(), "{flaw:?}");
            continue;
        }
        let trouble = found.expect_err(&format!("{flaw:?} was not found"));
        assert!(!trouble.why.contains("promise"), "{flaw:?}");
        // A file that is written wrongly is seen before a case asks for it.
        if flaw != StoreFlaw::WritesSure {
            assert_eq!(trouble.call.case.operation, operation, "{flaw:?}");
        }
    }
}

#[test]
fn a_hidden_store_is_held_to_the_promise() {
    for flaw in PROMISE_BREAKERS {
        let hidden = || Hidden::empty(broken(flaw));
        let found = compare_hidden(hidden, &broken(flaw), SEED, SEQUENCES);
        let trouble = found.expect_err(&format!("{flaw:?} was not found"));
        assert!(trouble.why.contains("promise"), "{flaw:?}");
    }
}
