//! 9/14's promise, held against what was answered and nothing else: not against
//! the memory, and not against what either implementation makes of it.
//!
//! "Each number issued for a meter is above every one issued before or heard from
//! it, over any calls in a running collector", and "nothing is issued for a meter
//! until one of its numbers is heard". A collector runs from one emptying of its
//! store to the next: no other call takes a meter away.

use std::collections::BTreeMap;

use crate::answer::Answer;
use crate::case::{Case, Operation};
use crate::store::Address;

/// What the calls of one meter have shown since the store was emptied.
#[derive(Clone, Copy, Default)]
struct Shown {
    /// One of its numbers was heard.
    heard: bool,
    /// The largest number that was heard or issued, if there is one.
    largest: Option<u64>,
}

#[derive(Default)]
pub struct Promise {
    meters: BTreeMap<Address, Shown>,
}

impl Promise {
    /// Takes note of a call and its answer; says what of the promise it breaks.
    pub fn answered(&mut self, case: &Case, answer: &Answer) -> Result<(), String> {
        // A refused call has done nothing.
        if answer.number != 0 {
            return Ok(());
        }
        match case.operation {
            Operation::StoreEmpty => self.meters.clear(),
            Operation::StoreHear => {
                let shown = self.meters.entry(case.meter()).or_default();
                shown.heard = true;
                shown.largest = shown.largest.max(Some(case.number("number")));
            }
            Operation::StoreIssue => {
                let shown = self.meters.entry(case.meter()).or_default();
                let issued = answer.row[0];
                shown.allows(issued)?;
                shown.largest = Some(issued);
            }
            // 9/14 lets no other call change what may be issued.
            _ => {}
        }
        Ok(())
    }
}

impl Shown {
    /// Whether this number may be issued now.
    fn allows(self, number: u64) -> Result<(), String> {
        if !self.heard {
            return Err(format!("{number} was issued before a number was heard"));
        }
        if self.largest >= Some(number) {
            return Err(format!("{number} is not above {:?}", self.largest));
        }
        if number > u32::MAX.into() {
            return Err(format!("{number} is not below 2^32"));
        }
        Ok(())
    }
}
