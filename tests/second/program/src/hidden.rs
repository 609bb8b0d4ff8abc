//! Settings stores that keep their memory to themselves, as the safe wrapper's do,
//! in the same sequences as the calls on lent memory (`sequences.rs`).
//!
//! Such a store begins empty, and a file comes in by a restore alone. So there is
//! no memory that it could refuse, and no mode or format outside its list: calls
//! with these are left out, and so are those before a store is emptied first.

// As in `sequences.rs`: trouble is large and occurs once a run.
#![allow(clippy::result_large_err)]

use crate::answer::Answer;
use crate::case::{hex, Case, Operation, Outcome};
use crate::compare::{Difference, Stats};
use crate::frames::Format;
use crate::generator::sequence::Sequence;
use crate::implementation::Implementation;
use crate::promise::Promise;
use crate::sequences::{judge, Trouble, CALLS};
use crate::store::{Address, Mode, Store, Version};

/// What such a store is asked.
pub enum Asked<'a> {
    Add(Address, Mode, Format),
    Hear(Address, u32),
    Issue(Address),
    Restore(&'a [u8]),
    /// To this output.
    Write(&'a mut [u8]),
    LookUp(Address),
    Allowance,
    SetAllowance(u32),
}

pub trait HiddenStore {
    /// Rows and refusals are those of the calls in `StoreCalls`, but for refusals
    /// of memory.
    fn answer(&mut self, asked: Asked) -> Answer;

    /// The store as a file of version 2.
    fn file(&self) -> Vec<u8>;

    /// All that is held, as it is listed.
    fn settings(&self) -> Store;
}

impl Asked<'_> {
    /// What a case asks, with the output that it lends; none where such a store
    /// cannot be asked.
    fn of<'a>(case: &'a Case, out: &'a mut [u8]) -> Option<Asked<'a>> {
        Some(match case.operation {
            Operation::StoreAdd => {
                let mode = Mode::ALL.get(case.number("mode") as usize)?;
                let format = Format::ALL.get(case.number("format") as usize)?;
                Asked::Add(case.meter(), *mode, *format)
            }
            Operation::StoreHear => Asked::Hear(case.meter(), case.number("number") as u32),
            Operation::StoreIssue => Asked::Issue(case.meter()),
            Operation::StoreRestore => Asked::Restore(case.bytes("file")),
            Operation::StoreWrite => Asked::Write(out),
            Operation::StoreLookUp => Asked::LookUp(case.meter()),
            Operation::StoreAllowance => Asked::Allowance,
            Operation::StoreSetAllowance => Asked::SetAllowance(case.number("allowance") as u32),
            _ => return None,
        })
    }
}

/// Runs so many sequences: a store that keeps its memory, begun by `empty`, and a
/// memory of another implementation live through the same calls. After each call
/// number, row and lent output are compared, then the store as it is written and
/// as it is listed, and the promise is held against the answer.
pub fn compare_hidden<S: HiddenStore>(
    empty: impl Fn() -> S,
    other: &dyn Implementation,
    seed: u64,
    count: u64,
) -> Result<Stats, Trouble> {
    let mut stats = Stats::default();
    for index in 0..count {
        compare_sequence(&empty, other, seed, index, &mut stats)?;
    }
    Ok(stats)
}

fn compare_sequence<S: HiddenStore>(
    empty: &impl Fn() -> S,
    other: &dyn Implementation,
    seed: u64,
    index: u64,
    stats: &mut Stats,
) -> Result<(), Trouble> {
    let mut sequence = Sequence::new(seed, index);
    let mut promise = Promise::default();
    // There is none before the first emptying.
    let mut hidden = None;
    for number in 0..CALLS {
        let call = sequence.call();
        let left = call.case.run(other);
        sequence.left(&call, &left);
        if call.aside {
            continue;
        }
        if call.case.operation == Operation::StoreEmpty {
            hidden = Some(empty());
        }
        let Some(store) = &mut hidden else {
            continue;
        };
        let Some(first) = ask(store, &call.case) else {
            continue;
        };
        let second = without_memory(&call.case, left);
        let judged = judge(&mut promise, &call, &first, &second)
            .and_then(|()| held_alike(store, &sequence.store()));
        if let Err(why) = judged {
            let call = Difference {
                index: number,
                case: call.case,
                first,
                second,
            };
            return Err(Trouble {
                seed,
                index,
                why,
                call,
            });
        }
        stats.add(call.case.operation, first.answer.number);
    }
    Ok(())
}

/// Asks a store what a case asks; none where it cannot be asked. No byte is lent
/// to it but an output.
fn ask(store: &mut impl HiddenStore, case: &Case) -> Option<Outcome> {
    let mut lent = Vec::new();
    if case.operation == Operation::StoreWrite {
        lent = case.bytes("out").to_vec();
    }
    let answer = if case.operation == Operation::StoreEmpty {
        Answer::accepted(&[store.file().len() as u64])
    } else {
        store.answer(Asked::of(case, &mut lent)?)
    };
    Some(Outcome { answer, lent })
}

/// An outcome without the memory that was lent, which the other store hides.
fn without_memory(case: &Case, outcome: Outcome) -> Outcome {
    match case.operation {
        Operation::StoreWrite => outcome,
        _ => Outcome {
            lent: Vec::new(),
            ..outcome
        },
    }
}

/// That a store is written and listed as this one. The memory is compared by this
/// alone: a hidden one is seen in no other way.
fn held_alike(store: &impl HiddenStore, held: &Store) -> Result<(), String> {
    let file = store.file();
    if file != held.file(Version::Two) {
        return Err(format!("the first is written as {}", hex(&file)));
    }
    let settings = store.settings();
    if settings != *held {
        return Err(format!("the first is listed as {settings:?}"));
    }
    Ok(())
}
