//! Runs sequences of calls of the settings store through two implementations, and
//! holds 9/14's promise against what both answered.

// A sequence goes wrong once a run: nothing is gained by boxing that.
#![allow(clippy::result_large_err)]

use std::fmt;

use crate::case::{Case, Outcome};
use crate::compare::{Difference, Stats};
use crate::generator::sequence::{Call, Sequence};
use crate::implementation::Implementation;
use crate::promise::Promise;

/// How many calls a sequence has.
pub const CALLS: u64 = 300;

/// The first call that went wrong.
#[derive(Clone, Debug, PartialEq, Eq)]
pub struct Trouble {
    pub seed: u64,
    /// The sequence, from 0.
    pub index: u64,
    pub why: String,
    /// The call. Where the promise is broken the two outcomes are the same.
    pub call: Difference,
}

/// Runs so many sequences. After each call the number, every field of the row and
/// every lent byte are compared, and the promise is held against the answer.
pub fn compare_sequences(
    a: &dyn Implementation,
    b: &dyn Implementation,
    seed: u64,
    count: u64,
) -> Result<Stats, Trouble> {
    let mut stats = Stats::default();
    for index in 0..count {
        compare_sequence(a, b, seed, index, &mut stats)?;
    }
    Ok(stats)
}

fn compare_sequence(
    a: &dyn Implementation,
    b: &dyn Implementation,
    seed: u64,
    index: u64,
    stats: &mut Stats,
) -> Result<(), Trouble> {
    let mut sequence = Sequence::new(seed, index);
    let mut promise = Promise::default();
    for number in 0..CALLS {
        let call = sequence.call();
        // Each has a copy of the memory of its own. What they leave is compared
        // whole, so that the next call finds the same in both.
        let first = call.case.run(a);
        let second = call.case.run(b);
        if let Err(why) = judge(&mut promise, &call, &first, &second) {
            let call = Difference {
                index: number,
                case: call.case,
                first,
                second,
            };
            return Err(Trouble {
                seed,
                index,
                why,
                call,
            });
        }
        stats.add(call.case.operation, first.answer.number);
        sequence.left(&call, &first);
    }
    Ok(())
}

/// What is wrong with a call that left these two outcomes, if anything is.
pub fn judge(
    promise: &mut Promise,
    call: &Call,
    first: &Outcome,
    second: &Outcome,
) -> Result<(), String> {
    if first != second {
        return Err("the two differ".to_string());
    }
    if call.aside {
        return Ok(());
    }
    promise
        .answered(&call.case, &first.answer)
        .map_err(|broken| format!("9/14's promise is broken: {broken}"))
}

/// The calls of a sequence, as cases with the memory that each finds.
pub fn cases_of(with: &dyn Implementation, seed: u64, index: u64) -> Vec<Case> {
    let mut sequence = Sequence::new(seed, index);
    let mut cases = Vec::new();
    for _ in 0..CALLS {
        let call = sequence.call();
        let outcome = call.case.run(with);
        sequence.left(&call, &outcome);
        cases.push(call.case);
    }
    cases
}

impl fmt::Display for Trouble {
    fn fmt(&self, f: &mut fmt::Formatter) -> fmt::Result {
        let Trouble { seed, index, .. } = self;
        writeln!(f, "sequence {index} of seed {seed}: {}", self.why)?;
        writeln!(f, "{}", self.call)?;
        write!(f, "all of its calls: second sequence {seed} {index}")
    }
}
