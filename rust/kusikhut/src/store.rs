//! The settings store: what a collector keeps of its meters, and session numbers that no backup turns back.
use crate::{raw, told, written, Format, Refusal};

/// Bytes of memory that a store is kept in; no store's file is longer.
pub const STORE_SIZE: usize = 1288;

/// Where meters begin in a store's file, and how many bytes each has; its M and A stand behind its first byte.
const FIRST_METER: usize = 8;
const METER_SIZE: usize = 20;

/// The modes of Table 64, in its order.
#[derive(Clone, Copy, Debug, PartialEq, Eq)]
pub enum Mode {
    R,
    S,
    T,
    C,
    N,
    F,
}

/// What a store holds of a meter.
#[derive(Clone, Copy, Debug, PartialEq, Eq)]
pub struct Meter {
    /// M and A as received.
    pub address: [u8; 8],
    pub mode: Mode,
    pub format: Format,
    /// The largest session number that was issued for the meter, heard from it or restored: after a restore it may be
    /// the file's.
    pub number: u32,
    /// No number of the meter was heard yet: none is issued.
    pub unsure: bool,
}

/// All that a store holds, its meters in the order in which they came.
#[derive(Clone, Debug, PartialEq, Eq)]
pub struct Settings {
    pub allowance: u32,
    pub meters: Vec<Meter>,
}

/// The store of a running collector, up to 64 meters. Each number that it issues for a meter is above every one that it
/// issued for it or heard from it before. So a file comes in by [`Store::restore`] alone, and there is no `Clone`: a
/// copy would issue the same numbers once more.
#[derive(Debug)]
pub struct Store {
    memory: [u8; STORE_SIZE],
}

impl Store {
    /// A store without meters, with the allowance 16,384.
    pub fn empty() -> Store {
        let mut memory = [0; STORE_SIZE];
        // Sound: the memory is valid for its length and borrowed for this call alone, and `told` lends one result.
        told(|r| unsafe { raw::kusikhut_store_empty(memory.as_mut_ptr(), STORE_SIZE, r) }, |[_size]| ())
            .expect("this memory is large enough");
        Store { memory }
    }

    /// The store whose own last bytes these are; for a backup this would turn numbers back. Judged twice: as memory,
    /// where version 1 is refused, and as a file, where missing bytes and bytes left over are.
    pub(crate) fn saved_last(bytes: &[u8]) -> Result<Store, Refusal> {
        let mut store = Store::empty();
        let fitting = bytes.len().min(STORE_SIZE);
        store.memory[..fitting].copy_from_slice(&bytes[..fitting]);
        store.held_allowance()?;
        Store::empty().restore(bytes)?;
        Ok(store)
    }

    /// Adds a meter, unsure and at number 0; of one that is held only mode and format are set.
    pub fn add(&mut self, meter: [u8; 8], mode: Mode, format: Format) -> Result<(), Refusal> {
        let (s, m) = (self.memory.as_mut_ptr(), meter.as_ptr());
        // Sound: the memory is valid for its length and borrowed for this call alone, the meter has eight bytes, and
        // `told` lends one result.
        told(
            |r| unsafe { raw::kusikhut_store_add(s, STORE_SIZE, m, mode as u8, format_number(format), r) },
            |[_size]| (),
        )
    }

    /// A number was heard from the meter: it is sure from now on, and keeps the larger number.
    pub fn hear(&mut self, meter: [u8; 8], number: u32) -> Result<(), Refusal> {
        let (s, m) = (self.memory.as_mut_ptr(), meter.as_ptr());
        // Sound: as above.
        told(|r| unsafe { raw::kusikhut_store_hear(s, STORE_SIZE, m, number, r) }, |[_size]| ())
    }

    /// The next number for the meter. Save the store before the number goes out; [`crate::StoreFile`] does.
    pub fn issue(&mut self, meter: [u8; 8]) -> Result<u32, Refusal> {
        let (s, m) = (self.memory.as_mut_ptr(), meter.as_ptr());
        // Sound: as above.
        told(|r| unsafe { raw::kusikhut_store_issue(s, STORE_SIZE, m, r) }, |[number]| number as u32)
    }

    /// Restores a file of version 1 or 2, all of it or nothing: own marks and larger numbers stay, new meters are
    /// unsure, all else is the file's.
    pub fn restore(&mut self, file: &[u8]) -> Result<(), Refusal> {
        let s = self.memory.as_mut_ptr();
        // Sound: the memory and the slice are valid for their lengths, the memory is borrowed for this call alone, and
        // `told` lends one result.
        told(|r| unsafe { raw::kusikhut_store_restore(s, STORE_SIZE, file.as_ptr(), file.len(), r) }, |[_size]| ())
    }

    /// Writes the store as a file of version 2 to the start of `out`; gives the number of bytes written.
    pub fn write(&self, out: &mut [u8]) -> Result<u64, Refusal> {
        written(raw::kusikhut_store_write, &self.memory, out)
    }

    /// The store as a file of version 2.
    pub fn bytes(&self) -> Vec<u8> {
        let mut file = vec![0; STORE_SIZE];
        let size = self.write(&mut file).expect("no store's file is longer");
        file.truncate(size as usize);
        file
    }

    /// What is held of a meter.
    pub fn look_up(&self, meter: [u8; 8]) -> Result<Meter, Refusal> {
        let (s, m) = (self.memory.as_ptr(), meter.as_ptr());
        // Sound: the memory is valid for its length, the meter has eight bytes, and `told` lends four results.
        told(
            |r| unsafe { raw::kusikhut_store_look_up(s, STORE_SIZE, m, r) },
            |[mode, format, number, unsure]| Meter {
                address: meter,
                mode: mode_of(mode),
                format: format_of(format),
                number: number as u32,
                unsure: unsure == 1,
            },
        )
    }

    /// The position allowance.
    pub fn allowance(&self) -> u32 {
        self.held_allowance().expect("this memory is a store")
    }

    fn held_allowance(&self) -> Result<u32, Refusal> {
        let s = self.memory.as_ptr();
        // Sound: the memory is valid for its length, and `told` lends one result.
        told(|r| unsafe { raw::kusikhut_store_allowance(s, STORE_SIZE, r) }, |[allowance]| allowance as u32)
    }

    pub fn set_allowance(&mut self, allowance: u32) {
        let s = self.memory.as_mut_ptr();
        // Sound: the memory is valid for its length and borrowed for this call alone, and `told` lends one result.
        told(|r| unsafe { raw::kusikhut_store_set_allowance(s, STORE_SIZE, allowance, r) }, |[_size]| ())
            .expect("this memory is a store");
    }

    /// All that is held. Which meters there are is read from the written file, what is held of each is looked up.
    pub fn settings(&self) -> Settings {
        let file = self.bytes();
        let addresses = file[FIRST_METER..].chunks_exact(METER_SIZE).map(|meter| std::array::from_fn(|k| meter[1 + k]));
        let meters = addresses.map(|address| self.look_up(address).expect("the store's file lists what it holds"));
        Settings { allowance: self.allowance(), meters: meters.collect() }
    }
}

fn mode_of(number: u64) -> Mode {
    match number {
        0 => Mode::R,
        1 => Mode::S,
        2 => Mode::T,
        3 => Mode::C,
        4 => Mode::N,
        5 => Mode::F,
        other => unreachable!("the library answers no mode {other}"),
    }
}

/// A format's number in Table 65.
fn format_number(format: Format) -> u8 {
    match format {
        Format::A => 0,
        Format::B => 1,
    }
}

fn format_of(number: u64) -> Format {
    match number {
        0 => Format::A,
        1 => Format::B,
        other => unreachable!("the library answers no format {other}"),
    }
}
