//! Runs the same cases through two implementations until they differ.

// A difference is large and occurs once a run: nothing is gained by boxing it.
#![allow(clippy::result_large_err)]

use std::collections::{BTreeMap, BTreeSet};
use std::fmt;

use crate::case::{Case, Operation, Outcome};
use crate::generator::{small_inputs, store_inputs, Cases};
use crate::implementation::Implementation;

/// How many cases each operation had with each answer number.
#[derive(Clone, Debug, Default, PartialEq, Eq)]
pub struct Stats {
    pub counts: BTreeMap<(Operation, u64), u64>,
}

/// The first case on which two implementations differ.
#[derive(Clone, Debug, PartialEq, Eq)]
pub struct Difference {
    /// Its number in this run, from 0.
    pub index: u64,
    pub case: Case,
    pub first: Outcome,
    pub second: Outcome,
}

/// Compares number, every field of the row and every lent byte on `count` cases made from a
/// seed. Stops at the first difference.
pub fn compare(
    a: &dyn Implementation,
    b: &dyn Implementation,
    seed: u64,
    count: u64,
) -> Result<Stats, Difference> {
    compare_cases(a, b, Cases::new(seed).take(count as usize))
}

/// The same for every input of the operations that have few of them, and for the
/// small inputs of the settings store.
pub fn compare_small_inputs(
    a: &dyn Implementation,
    b: &dyn Implementation,
) -> Result<Stats, Difference> {
    compare_cases(a, b, small_inputs().into_iter().chain(store_inputs()))
}

/// The same for cases of the caller's choice.
pub fn compare_cases(
    a: &dyn Implementation,
    b: &dyn Implementation,
    cases: impl IntoIterator<Item = Case>,
) -> Result<Stats, Difference> {
    compare_outcomes(|case| case.run(a), |case| case.run(b), cases)
}

/// The same for two ways to come by an outcome: a test of the comparison plants
/// something wrong in one of them.
pub fn compare_outcomes(
    a: impl Fn(&Case) -> Outcome,
    b: impl Fn(&Case) -> Outcome,
    cases: impl IntoIterator<Item = Case>,
) -> Result<Stats, Difference> {
    let mut stats = Stats::default();
    for (index, case) in (0..).zip(cases) {
        let first = a(&case);
        let second = b(&case);
        if first != second {
            return Err(Difference {
                index,
                case,
                first,
                second,
            });
        }
        stats.add(case.operation, first.answer.number);
    }
    Ok(stats)
}

impl Stats {
    /// One case more.
    pub fn add(&mut self, operation: Operation, number: u64) {
        *self.counts.entry((operation, number)).or_insert(0) += 1;
    }

    /// How often an operation gave an answer number.
    pub fn count(&self, operation: Operation, number: u64) -> u64 {
        self.counts.get(&(operation, number)).copied().unwrap_or(0)
    }

    /// The answer numbers that an operation gave, ascending.
    pub fn numbers(&self, operation: Operation) -> Vec<u64> {
        self.counts
            .keys()
            .filter(|(known, _)| *known == operation)
            .map(|(_, number)| *number)
            .collect()
    }

    /// How many cases an operation had.
    pub fn cases(&self, operation: Operation) -> u64 {
        let numbers = self.numbers(operation).into_iter();
        numbers.map(|number| self.count(operation, number)).sum()
    }

    /// The answer numbers that any operation gave, ascending.
    fn columns(&self) -> BTreeSet<u64> {
        self.counts.keys().map(|(_, number)| *number).collect()
    }

    /// All cases together.
    pub fn total(&self) -> u64 {
        self.counts.values().sum()
    }
}

/// A table: a row for each operation, a column for each answer number that was
/// given.
impl fmt::Display for Stats {
    fn fmt(&self, f: &mut fmt::Formatter) -> fmt::Result {
        write!(f, "{:<22}", "operation")?;
        for number in self.columns() {
            write!(f, "{number:>7}")?;
        }
        writeln!(f, "{:>9}", "cases")?;
        for operation in Operation::all().filter(|&operation| self.cases(operation) > 0) {
            write!(f, "{:<22}", operation.name())?;
            for number in self.columns() {
                match self.count(operation, number) {
                    0 => write!(f, "{:>7}", ".")?,
                    count => write!(f, "{count:>7}")?,
                }
            }
            writeln!(f, "{:>9}", self.cases(operation))?;
        }
        write!(f, "{} cases", self.total())
    }
}

impl fmt::Display for Difference {
    fn fmt(&self, f: &mut fmt::Formatter) -> fmt::Result {
        writeln!(f, "case {}: {}", self.index, self.case)?;
        writeln!(f, "first:  {}", self.first)?;
        write!(f, "second: {}", self.second)
    }
}
