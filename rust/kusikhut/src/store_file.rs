//! A running store that lives in a file: an accepted change is on the disk before its answer is handed out, so that no
//! number is handed out twice, whenever the program or the power fails. What is on the disk is the store: every call
//! reads it anew, so that programs may share it, and a change that another program makes is not lost (`replaced`).
//!
//! The file is the collector's own and no backup: one copied over it would turn numbers back, and nothing could see it.
use crate::replaced::Replaced;
use crate::{Format, Meter, Mode, Refusal, Settings, Store, STORE_SIZE};
use std::fmt;
use std::fs::{self, File};
use std::io::{self, Read};
use std::path::{Path, PathBuf};

/// Why a call on a store's file has no accepted answer.
#[derive(Debug)]
pub enum StoreFault {
    Refused(Refusal),
    /// The file could not be read or saved. A change that was told so was made whole or not at all.
    File(io::Error),
}

/// What a restore found and what it left.
#[derive(Clone, Debug, PartialEq, Eq)]
pub struct Restored {
    pub before: Settings,
    pub after: Settings,
}

/// A store in a file. It keeps nothing but the place of the file, so that any number of these may stand for one store.
#[derive(Debug)]
pub struct StoreFile {
    path: PathBuf,
}

impl StoreFile {
    /// A store without meters, in a new file; one that is there stays.
    pub fn create(path: &Path) -> Result<StoreFile, StoreFault> {
        Ok(StoreFile { path: create(path, &Store::empty().bytes())? })
    }

    /// The store in a file; 17 or 18 where its bytes are no store of version 2.
    pub fn open(path: &Path) -> Result<StoreFile, StoreFault> {
        // Two names of one file are one store, with one lock.
        let store = StoreFile { path: fs::canonicalize(path)? };
        store.load()?;
        Ok(store)
    }

    pub fn add(&self, meter: [u8; 8], mode: Mode, format: Format) -> Result<(), StoreFault> {
        self.change(|store| store.add(meter, mode, format))
    }

    pub fn hear(&self, meter: [u8; 8], number: u32) -> Result<(), StoreFault> {
        self.change(|store| store.hear(meter, number))
    }

    pub fn issue(&self, meter: [u8; 8]) -> Result<u32, StoreFault> {
        self.change(|store| store.issue(meter))
    }

    /// Restores a backup, given as its bytes.
    pub fn restore(&self, backup: &[u8]) -> Result<Restored, StoreFault> {
        self.change(|store| {
            let before = store.settings();
            store.restore(backup)?;
            Ok(Restored { before, after: store.settings() })
        })
    }

    pub fn set_allowance(&self, allowance: u32) -> Result<(), StoreFault> {
        self.change(|store| {
            store.set_allowance(allowance);
            Ok(())
        })
    }

    pub fn look_up(&self, meter: [u8; 8]) -> Result<Meter, StoreFault> {
        Ok(self.load()?.look_up(meter)?)
    }

    pub fn settings(&self) -> Result<Settings, StoreFault> {
        Ok(self.load()?.settings())
    }

    /// Writes the store as a backup, to a new file; one that is there stays, since it may be another collector's store.
    pub fn back_up(&self, to: &Path) -> Result<(), StoreFault> {
        create(to, &self.load()?.bytes())?;
        Ok(())
    }

    /// Needs no lock: whoever replaces the file replaces it whole.
    fn load(&self) -> Result<Store, StoreFault> {
        Ok(Store::saved_last(&read_store(&self.path)?)?)
    }

    fn change<T>(&self, call: impl FnOnce(&mut Store) -> Result<T, Refusal>) -> Result<T, StoreFault> {
        let file = Replaced::lock(&self.path)?;
        let mut store = self.load()?;
        let answer = call(&mut store)?;
        file.put(&store.bytes())?;
        Ok(answer)
    }
}

/// The bytes of a file that may be a store's: of a longer one a byte more than a store can have, enough to refuse it.
pub fn read_store(path: &Path) -> io::Result<Vec<u8>> {
    let mut bytes = Vec::new();
    File::open(path)?.take(STORE_SIZE as u64 + 1).read_to_end(&mut bytes)?;
    Ok(bytes)
}

/// A new file with these bytes; gives its place.
fn create(path: &Path, bytes: &[u8]) -> io::Result<PathBuf> {
    let name = path.file_name().ok_or(io::Error::new(io::ErrorKind::InvalidInput, "this is no file's name"))?;
    // The folder of a name alone is empty, and stands for the one that the program runs in.
    let folder = path.parent().unwrap_or(Path::new("")).join(".");
    let path = fs::canonicalize(folder)?.join(name);
    let file = Replaced::lock(&path)?;
    if fs::symlink_metadata(&path).is_ok() {
        return Err(io::ErrorKind::AlreadyExists.into());
    }
    file.put(bytes)?;
    Ok(path)
}

impl From<Refusal> for StoreFault {
    fn from(refusal: Refusal) -> StoreFault {
        StoreFault::Refused(refusal)
    }
}

impl From<io::Error> for StoreFault {
    fn from(why: io::Error) -> StoreFault {
        StoreFault::File(why)
    }
}

impl fmt::Display for StoreFault {
    fn fmt(&self, f: &mut fmt::Formatter) -> fmt::Result {
        match self {
            StoreFault::Refused(refusal) => refusal.fmt(f),
            StoreFault::File(why) => why.fmt(f),
        }
    }
}

impl std::error::Error for StoreFault {}
