//! The settings store (request 9/14): the meters with what is known of them, the
//! position allowance, the file in its two versions, and the calls.
//!
//! A store is plain data here. The calls that include/kusikhut.h names work on
//! memory of the caller's; they stand at the end of this file, and each reads
//! the memory into a store, does its work on that, and writes it back when
//! nothing was refused.

use crate::answer::Refusal;
use crate::chips::put;
use crate::frames::Format;

/// 9/14: "Store up to 64 meters".
pub const MOST_METERS: usize = 64;

/// 9/14: "Version 1 has no allowance and means 16,384". So has an empty store.
pub const USUAL_ALLOWANCE: u32 = 16_384;

/// The least memory that a store may have: as much as the longest file has. The
/// version byte, the allowance in 5 bytes and the count in 2; then 9 + 2 + 2 +
/// 5 + 2 bytes for each meter.
pub const MEMORY: usize = 8 + 20 * MOST_METERS;

/// M (2) and A (6) as received.
pub type Address = [u8; 8];

/// The modes; their places in `ALL` are their numbers in Table 64.
#[derive(Clone, Copy, Debug, PartialEq, Eq)]
pub enum Mode {
    R,
    S,
    T,
    C,
    N,
    F,
}

impl Mode {
    pub const ALL: [Mode; 6] = [Mode::R, Mode::S, Mode::T, Mode::C, Mode::N, Mode::F];
}

/// What the file's mark says: 0 is sure, 1 unsure.
const MARKS: [bool; 2] = [false, true];

#[derive(Clone, Copy, Debug, PartialEq, Eq)]
pub struct Meter {
    pub address: Address,
    pub mode: Mode,
    pub format: Format,
    /// The last session number: the largest that was heard, issued or restored.
    pub number: u32,
    /// No number is issued before one of the meter's own is heard.
    pub unsure: bool,
}

/// Meters stand in the order in which they came.
#[derive(Clone, Debug, PartialEq, Eq)]
pub struct Store {
    pub allowance: u32,
    pub meters: Vec<Meter>,
}

/// The versions of the file, with their bytes.
#[derive(Clone, Copy, Debug, PartialEq, Eq)]
pub enum Version {
    One = 1,
    Two = 2,
}

impl Version {
    pub const ALL: [Version; 2] = [Version::One, Version::Two];
}

// ---------------------------------------------------- the store as plain data

impl Store {
    pub fn empty() -> Store {
        Store {
            allowance: USUAL_ALLOWANCE,
            meters: Vec::new(),
        }
    }

    /// What is held of a meter, if it is held.
    pub fn find(&self, address: Address) -> Option<Meter> {
        let mut held = self.meters.iter().copied();
        held.find(|meter| meter.address == address)
    }

    /// The same; refusal 19.
    pub fn look_up(&self, address: Address) -> Result<Meter, Refusal> {
        self.find(address).ok_or(Refusal::MeterNotHeld)
    }

    /// A held meter, to be changed; refusal 19.
    fn held(&mut self, address: Address) -> Result<&mut Meter, Refusal> {
        let mut held = self.meters.iter_mut();
        held.find(|meter| meter.address == address)
            .ok_or(Refusal::MeterNotHeld)
    }

    /// 9/14: "An added meter starts unsure at number 0; adding a held one only
    /// sets mode and format." Refusal 22.
    pub fn add(&mut self, address: Address, mode: Mode, format: Format) -> Result<(), Refusal> {
        if let Ok(meter) = self.held(address) {
            meter.mode = mode;
            meter.format = format;
            return Ok(());
        }
        if self.meters.len() == MOST_METERS {
            return Err(Refusal::StoreFull);
        }
        self.meters.push(Meter {
            address,
            mode,
            format,
            number: 0,
            unsure: true,
        });
        Ok(())
    }

    /// 9/14: "Hearing clears the mark and keeps the larger number". Refusal 19.
    pub fn hear(&mut self, address: Address, number: u32) -> Result<(), Refusal> {
        let meter = self.held(address)?;
        meter.unsure = false;
        meter.number = meter.number.max(number);
        Ok(())
    }

    /// 9/14: "issuing adds one, below 2^32". Refusals 19, 20, 21. Answers the
    /// number that was issued.
    pub fn issue(&mut self, address: Address) -> Result<u32, Refusal> {
        let meter = self.held(address)?;
        if meter.unsure {
            return Err(Refusal::Unsure);
        }
        let next = meter.number.checked_add(1);
        meter.number = next.ok_or(Refusal::NumbersUsedUp)?;
        Ok(meter.number)
    }

    /// What a restore makes of this store. Refusal 22.
    ///
    /// 9/14 tells of a running collector and of an empty one. An empty one holds
    /// no meter, so that each of the file's is new to it and "comes in unsure",
    /// which is what 9/14 asks for there: one rule is enough for both.
    pub fn restored(&self, file: &Store) -> Result<Store, Refusal> {
        let mut meters = Vec::new();
        for own in &self.meters {
            meters.push(match file.find(own.address) {
                // "a held meter not in it stays"
                None => *own,
                // "keeps its own unsure marks and the larger number per meter,
                // all else from the file"
                Some(saved) => Meter {
                    unsure: own.unsure,
                    number: own.number.max(saved.number),
                    ..saved
                },
            });
        }
        for saved in &file.meters {
            if self.find(saved.address).is_none() {
                // "a new one comes in unsure", whatever the file's mark says
                meters.push(Meter {
                    unsure: true,
                    ..*saved
                });
            }
        }
        // "over 64 together is 22"
        if meters.len() > MOST_METERS {
            return Err(Refusal::StoreFull);
        }
        Ok(Store {
            allowance: file.allowance,
            meters,
        })
    }
}

// ------------------------------------------------------------------- the file

/// Appends a field: its length in one byte, then its bytes.
fn field(file: &mut Vec<u8>, bytes: &[u8]) {
    file.push(bytes.len() as u8);
    file.extend(bytes);
}

impl Store {
    /// The file of this store. Version 2 is what every call writes; the cases of
    /// the comparison need files of version 1, too, in which the allowance is
    /// left out.
    pub fn file(&self, version: Version) -> Vec<u8> {
        let mut file = vec![version as u8];
        if version == Version::Two {
            field(&mut file, &self.allowance.to_be_bytes());
        }
        field(&mut file, &[self.meters.len() as u8]);
        for meter in &self.meters {
            field(&mut file, &meter.address);
            field(&mut file, &[meter.mode as u8]);
            field(&mut file, &[meter.format as u8]);
            field(&mut file, &meter.number.to_be_bytes());
            field(&mut file, &[meter.unsure as u8]);
        }
        file
    }
}

/// The fields that are still to be read.
struct Fields<'a> {
    left: &'a [u8],
}

impl Fields<'_> {
    /// So many bytes; 17 if there are fewer.
    fn bytes<const N: usize>(&mut self) -> Result<[u8; N], Refusal> {
        if self.left.len() < N {
            return Err(Refusal::MalformedStore);
        }
        let (bytes, left) = self.left.split_at(N);
        self.left = left;
        let mut taken = [0; N];
        taken.copy_from_slice(bytes);
        Ok(taken)
    }

    /// The next field, which must have this length; else 17.
    fn next<const N: usize>(&mut self) -> Result<[u8; N], Refusal> {
        let [length] = self.bytes()?;
        if length as usize != N {
            return Err(Refusal::MalformedStore);
        }
        self.bytes()
    }

    fn number(&mut self) -> Result<u32, Refusal> {
        Ok(u32::from_be_bytes(self.next()?))
    }

    /// One of a list, by its place there; 17 if the value is outside the list.
    fn one_of<T: Copy>(&mut self, list: &[T]) -> Result<T, Refusal> {
        let [place] = self.next()?;
        from_list(list, place)
    }

    fn meter(&mut self) -> Result<Meter, Refusal> {
        Ok(Meter {
            address: self.next()?,
            mode: self.one_of(&Mode::ALL)?,
            format: self.one_of(&Format::ALL)?,
            number: self.number()?,
            unsure: self.one_of(&MARKS)?,
        })
    }

    /// All that stands behind the version byte. Refusal 17.
    fn store(&mut self, version: Version) -> Result<Store, Refusal> {
        let mut store = Store::empty();
        if version == Version::Two {
            store.allowance = self.number()?;
        }
        let [count] = self.next()?;
        if count as usize > MOST_METERS {
            return Err(Refusal::MalformedStore);
        }
        for _ in 0..count {
            let meter = self.meter()?;
            if store.find(meter.address).is_some() {
                return Err(Refusal::MalformedStore);
            }
            store.meters.push(meter);
        }
        Ok(store)
    }
}

/// What stands at this place of a list; 17 if the list is shorter.
fn from_list<T: Copy>(list: &[T], place: u8) -> Result<T, Refusal> {
    let found = list.get(place as usize).copied();
    found.ok_or(Refusal::MalformedStore)
}

/// Reading a file. Order: 17 if empty, 18, 17.
pub fn read_file(file: &[u8]) -> Result<Store, Refusal> {
    let (&first, left) = file.split_first().ok_or(Refusal::MalformedStore)?;
    let version = Version::ALL
        .into_iter()
        .find(|&version| version as u8 == first)
        .ok_or(Refusal::UnknownVersion)?;
    let mut fields = Fields { left };
    let store = fields.store(version)?;
    if !fields.left.is_empty() {
        return Err(Refusal::MalformedStore);
    }
    Ok(store)
}

// ------------------------------------------------- the calls, on lent memory

/// Reading the memory: a store in version 2, then bytes that mean nothing. A
/// store in version 1 is a file and no memory. Order: 17 if there is no byte, 18,
/// 17, also if the memory is too small for a full store.
pub fn read_memory(memory: &[u8]) -> Result<Store, Refusal> {
    let (&first, left) = memory.split_first().ok_or(Refusal::MalformedStore)?;
    if first != Version::Two as u8 {
        return Err(Refusal::UnknownVersion);
    }
    if memory.len() < MEMORY {
        return Err(Refusal::MalformedStore);
    }
    Fields { left }.store(Version::Two)
}

/// Writes a store back to the front of its memory; bytes behind it stay. Answers
/// how many bytes it has.
fn write_back(store: &Store, memory: &mut [u8]) -> Result<usize, Refusal> {
    put(&store.file(Version::Two), memory)
}

/// A store without meters. Refusal 4 where no store fits: the memory is lent for
/// a store that may grow to its full size.
pub fn empty(memory: &mut [u8]) -> Result<usize, Refusal> {
    if memory.len() < MEMORY {
        return Err(Refusal::OutputTooSmall);
    }
    write_back(&Store::empty(), memory)
}

/// Order: the memory's 17, 18, 17; 17 if mode or format is outside its list; 22.
/// Answers the store's bytes, as do the other calls that change it but issuing.
pub fn add(memory: &mut [u8], address: Address, mode: u8, format: u8) -> Result<usize, Refusal> {
    let mut store = read_memory(memory)?;
    let mode = from_list(&Mode::ALL, mode)?;
    let format = from_list(&Format::ALL, format)?;
    store.add(address, mode, format)?;
    write_back(&store, memory)
}

/// Order: the memory's; 19.
pub fn hear(memory: &mut [u8], address: Address, number: u32) -> Result<usize, Refusal> {
    let mut store = read_memory(memory)?;
    store.hear(address, number)?;
    write_back(&store, memory)
}

/// Order: the memory's; 19, 20, 21. Answers the number.
pub fn issue(memory: &mut [u8], address: Address) -> Result<u32, Refusal> {
    let mut store = read_memory(memory)?;
    let number = store.issue(address)?;
    write_back(&store, memory)?;
    Ok(number)
}

/// Order: the memory's; the file's 17, 18, 17; 22.
pub fn restore(memory: &mut [u8], file: &[u8]) -> Result<usize, Refusal> {
    let store = read_memory(memory)?;
    let restored = store.restored(&read_file(file)?)?;
    write_back(&restored, memory)
}

/// Order: the memory's; 4. Answers the bytes written.
pub fn write(memory: &[u8], out: &mut [u8]) -> Result<usize, Refusal> {
    let store = read_memory(memory)?;
    put(&store.file(Version::Two), out)
}

/// Order: the memory's; 19.
pub fn look_up(memory: &[u8], address: Address) -> Result<Meter, Refusal> {
    read_memory(memory)?.look_up(address)
}

/// Order: the memory's.
pub fn allowance(memory: &[u8]) -> Result<u32, Refusal> {
    Ok(read_memory(memory)?.allowance)
}

/// Order: the memory's.
pub fn set_allowance(memory: &mut [u8], allowance: u32) -> Result<usize, Refusal> {
    let mut store = read_memory(memory)?;
    store.allowance = allowance;
    write_back(&store, memory)
}
