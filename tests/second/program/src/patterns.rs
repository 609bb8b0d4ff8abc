//! Runs many patterns of wrong bytes through the proposers of two implementations, and
//! holds what was written against what both propose.

// A pattern goes wrong once a run: nothing is gained by boxing that.
#![allow(clippy::result_large_err)]

use std::collections::BTreeMap;
use std::fmt;
use std::ops::RangeInclusive;

use crate::compare::Difference;
use crate::generator::patterns::Pattern;
use crate::implementation::Implementation;
use crate::mending::MOST_DIFFERENT;
use crate::random::Random;

/// How many bytes are wrong where the written word has to be proposed. One or two of
/// them are for the small inputs.
const NEAR: RangeInclusive<usize> = 3..=MOST_DIFFERENT;

/// How many are wrong where nobody knows what is near.
const FAR: RangeInclusive<usize> = MOST_DIFFERENT + 1..=40;

/// How many patterns there were with each number of wrong bytes.
#[derive(Clone, Debug, Default, PartialEq, Eq)]
pub struct Counts(pub BTreeMap<usize, u64>);

/// The first pattern that went wrong.
#[derive(Clone, Debug, PartialEq, Eq)]
pub struct Miss {
    /// How many bytes were wrong.
    pub wrong: usize,
    pub why: &'static str,
    /// Where both miss the written word the two outcomes are the same.
    pub call: Difference,
}

/// Runs so many patterns of 3 to 16 wrong bytes, for which both must propose the word
/// that was written, and behind every fourth of them one of 17 to 40 wrong bytes, for
/// which they must propose the same.
pub fn compare_patterns(
    a: &dyn Implementation,
    b: &dyn Implementation,
    seed: u64,
    count: u64,
) -> Result<Counts, Miss> {
    let mut random = Random::new(seed);
    let mut counts = Counts::default();
    for index in 0..count {
        compare_pattern(a, b, any_of(&mut random, NEAR), index, &mut counts)?;
        if index % 4 == 3 {
            compare_pattern(a, b, any_of(&mut random, FAR), index, &mut counts)?;
        }
    }
    Ok(counts)
}

fn any_of(random: &mut Random, counts: RangeInclusive<usize>) -> Pattern {
    let (fewest, most) = counts.into_inner();
    let wrong = fewest + random.below(most - fewest + 1);
    Pattern::new(random, wrong)
}

fn compare_pattern(
    a: &dyn Implementation,
    b: &dyn Implementation,
    pattern: Pattern,
    index: u64,
    counts: &mut Counts,
) -> Result<(), Miss> {
    let first = pattern.case.run(a);
    let second = pattern.case.run(b);
    let why = if first != second {
        "the two differ"
    } else if pattern.wrong <= MOST_DIFFERENT && first != pattern.mended() {
        "the written word is not proposed"
    } else {
        *counts.0.entry(pattern.wrong).or_insert(0) += 1;
        return Ok(());
    };
    let call = Difference {
        index,
        case: pattern.case,
        first,
        second,
    };
    Err(Miss {
        wrong: pattern.wrong,
        why,
        call,
    })
}

/// A line for each number of wrong bytes.
impl fmt::Display for Counts {
    fn fmt(&self, f: &mut fmt::Formatter) -> fmt::Result {
        writeln!(f, "{:>11}{:>9}", "wrong bytes", "cases")?;
        for (wrong, count) in &self.0 {
            writeln!(f, "{wrong:>11}{count:>9}")?;
        }
        write!(f, "{} cases", self.0.values().sum::<u64>())
    }
}

impl fmt::Display for Miss {
    fn fmt(&self, f: &mut fmt::Formatter) -> fmt::Result {
        writeln!(f, "{} wrong bytes: {}", self.wrong, self.why)?;
        write!(f, "{}", self.call)
    }
}
