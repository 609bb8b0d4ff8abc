//! Sequences of calls of the settings store: one memory that lives through many
//! calls, with few meters, so that they meet. Backups are written at one time and
//! restored at another, into the same store or one that was emptied.

use super::store::{
    address, any_number, file_of, mode_and_format, spoil_file, spoil_memory, store_among,
};
use super::{number, output_for};
use crate::case::{Argument, Case, Operation, Outcome};
use crate::random::Random;
use crate::store::{read_memory, Address, Store, Version, MEMORY, MOST_METERS};

/// How many backups are kept at a time.
const BACKUPS: usize = 6;

/// One of the calls.
pub struct Call {
    pub case: Case,
    /// It is made on a damaged copy of the memory, which nobody keeps.
    pub aside: bool,
}

pub struct Sequence {
    random: Random,
    memory: Vec<u8>,
    /// How many different meters there are.
    meters: usize,
    /// Numbers at the end of their range are heard and restored, too.
    high: bool,
    backups: Vec<Vec<u8>>,
    /// The last call emptied the store.
    emptied: bool,
}

impl Sequence {
    /// Every sequence of a seed has an index, and can be made again without those
    /// before it.
    pub fn new(seed: u64, index: u64) -> Sequence {
        let mut random = Random::new(seed ^ index.wrapping_mul(0x9E37_79B9_7F4A_7C15));
        // At first there is no store, but whatever stands in the memory.
        let length = MEMORY + random.pick(&[0, 1, 40]);
        let memory = random.bytes(length);
        let meters = random.pick(&[1, 2, 3, 5, 8, 70]);
        let high = random.once_in(3);
        Sequence {
            random,
            memory,
            meters,
            high,
            backups: Vec::new(),
            emptied: false,
        }
    }

    /// The next call.
    pub fn call(&mut self) -> Call {
        let operation = self.operation();
        let aside = self.random.once_in(25);
        let memory = if aside {
            let store = self.store();
            spoil_memory(&mut self.random, &store)
        } else {
            self.scribble();
            self.memory.clone()
        };
        let mut arguments = vec![Argument::Bytes(memory)];
        arguments.extend(self.other_arguments(operation));
        Call {
            case: Case::new(operation, arguments),
            aside,
        }
    }

    /// What the call left is what the next one finds.
    pub fn left(&mut self, call: &Call, outcome: &Outcome) {
        let accepted = outcome.answer.number == 0;
        if call.aside {
            return;
        }
        let operation = call.case.operation;
        match operation {
            Operation::StoreWrite if accepted => {
                let size = outcome.answer.row[0] as usize;
                self.keep(outcome.lent[..size].to_vec());
            }
            Operation::StoreWrite | Operation::StoreLookUp | Operation::StoreAllowance => {}
            _ => self.memory = outcome.lent.clone(),
        }
        self.emptied = accepted && operation == Operation::StoreEmpty;
    }

    /// The store as it is; an empty one where the memory holds none.
    pub fn store(&self) -> Store {
        read_memory(&self.memory).unwrap_or(Store::empty())
    }

    fn keep(&mut self, backup: Vec<u8>) {
        if self.backups.len() == BACKUPS {
            let old = self.random.below(BACKUPS);
            self.backups.swap_remove(old);
        }
        self.backups.push(backup);
    }

    /// Now and then other bytes stand behind the store, where they mean nothing.
    fn scribble(&mut self) {
        if read_memory(&self.memory).is_ok() && self.random.once_in(8) {
            let file = self.store().file(Version::Two);
            let more = self.memory.len() - file.len();
            self.memory = [file, self.random.bytes(more)].concat();
        }
    }

    fn operation(&mut self) -> Operation {
        let seldom = self.random.once_in(4);
        if read_memory(&self.memory).is_err() && !seldom {
            return Operation::StoreEmpty;
        }
        if self.emptied && !seldom {
            return Operation::StoreRestore;
        }
        match self.random.below(60) {
            0 => Operation::StoreEmpty,
            1..=8 => Operation::StoreAdd,
            9..=24 => Operation::StoreHear,
            25..=42 => Operation::StoreIssue,
            43..=47 => Operation::StoreRestore,
            48..=51 => Operation::StoreWrite,
            52..=55 => Operation::StoreLookUp,
            56..=57 => Operation::StoreAllowance,
            _ => Operation::StoreSetAllowance,
        }
    }

    /// The arguments behind the memory.
    fn other_arguments(&mut self, operation: Operation) -> Vec<Argument> {
        let meter = address(self.random.below(self.meters));
        let name = meter.to_vec().into();
        match operation {
            Operation::StoreEmpty | Operation::StoreAllowance => vec![],
            Operation::StoreAdd => {
                let (mode, format) = mode_and_format(&mut self.random);
                vec![name, number(mode), number(format)]
            }
            Operation::StoreHear => vec![name, number(self.heard(meter))],
            Operation::StoreIssue | Operation::StoreLookUp => vec![name],
            Operation::StoreRestore => vec![self.file().into()],
            Operation::StoreWrite => {
                let size = self.store().file(Version::Two).len();
                vec![output_for(&mut self.random, size).into()]
            }
            Operation::StoreSetAllowance => vec![number(any_number(&mut self.random))],
            _ => panic!("{operation:?} is no call of the store"),
        }
    }

    /// A number to be heard: about the one that is held, or small.
    fn heard(&mut self, meter: Address) -> u32 {
        let held = self.store().find(meter).map_or(0, |meter| meter.number);
        match self.random.below(12) {
            0 => 0,
            1 if self.high => u32::MAX - self.random.below(3) as u32,
            2..=4 => held.saturating_add(self.random.below(5) as u32),
            5..=7 => held.saturating_sub(self.random.below(5) as u32),
            _ => self.random.below(1000) as u32,
        }
    }

    /// A file to be restored: a backup of this store or of another collector's,
    /// now and then in version 1, now and then damaged.
    fn file(&mut self) -> Vec<u8> {
        let spoiled = self.random.once_in(6);
        if self.backups.is_empty() || self.random.once_in(3) {
            let store = self.other_collector();
            let (mut file, version) = file_of(&mut self.random, &store);
            if spoiled {
                spoil_file(&mut self.random, &mut file, version, store.meters.len());
            }
            return file;
        }
        let place = self.random.below(self.backups.len());
        let mut file = self.backups[place].clone();
        if spoiled {
            let meters = (file.len() - 8) / 20;
            spoil_file(&mut self.random, &mut file, Version::Two, meters);
        } else if self.random.once_in(5) {
            // As version 1 would have it: without the five bytes of the allowance.
            file.splice(0..6, [1]);
        }
        file
    }

    /// The store of another collector, which has to do with the same meters.
    fn other_collector(&mut self) -> Store {
        let count = self.random.below(self.meters + 1).min(MOST_METERS);
        let mut store = store_among(&mut self.random, self.meters, count);
        for meter in &mut store.meters {
            if !self.high || !self.random.once_in(12) {
                meter.number = self.random.below(1000) as u32;
            }
        }
        store
    }
}
