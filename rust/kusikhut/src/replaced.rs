//! Files that are replaced whole, by one program at a time.
//!
//! What is new is written to a file beside the old one, flushed and renamed over it; then the folder is flushed. So a
//! crash or a power cut at any moment leaves the old file or the new one, and when `put` is done the new one stays.
//!
//! The file beside is locked, from before the old one is read until it is replaced: of two programs the second waits,
//! and then reads what the first has written. It is that file and not the old one, since after a rename the old one's
//! name is another file's, and who still waits for the old one would go on beside its new owner. A lock goes with its
//! program, however that ends; what one that was killed left there is written over by the next.
use std::fs::{self, File, OpenOptions};
use std::io::{self, Write};
use std::os::unix::fs::MetadataExt;
use std::path::{Path, PathBuf};

/// What stands behind a file's name in that of the file beside it.
const ENDING: &str = ".being-written";

/// A file that this program alone may replace, as long as this value lives.
pub struct Replaced {
    path: PathBuf,
    beside: PathBuf,
    new: File,
    put: bool,
}

impl Replaced {
    /// Waits until no other program replaces the file.
    pub fn lock(path: &Path) -> io::Result<Replaced> {
        if path.as_os_str().as_encoded_bytes().ends_with(ENDING.as_bytes()) {
            return Err(io::Error::new(io::ErrorKind::InvalidInput, format!("no store's name ends in {ENDING}")));
        }
        let mut beside = path.to_owned().into_os_string();
        beside.push(ENDING);
        let beside = PathBuf::from(beside);
        loop {
            let new = OpenOptions::new().write(true).create(true).truncate(false).open(&beside)?;
            new.lock()?;
            if is_at(&new, &beside)? {
                new.set_len(0)?;
                return Ok(Replaced { path: path.into(), beside, new, put: false });
            }
        }
    }

    /// Puts the bytes in the place of all that the file held.
    pub fn put(mut self, bytes: &[u8]) -> io::Result<()> {
        if let Ok(old) = fs::metadata(&self.path) {
            self.new.set_permissions(old.permissions())?;
        }
        self.new.write_all(bytes)?;
        self.new.sync_all()?;
        fs::rename(&self.beside, &self.path)?;
        self.put = true;
        let folder = self.path.parent().ok_or(io::ErrorKind::InvalidInput)?;
        File::open(folder)?.sync_all()
    }
}

impl Drop for Replaced {
    /// Nothing stays beside a file that was not replaced. The name is still ours: the lock is let go after this.
    fn drop(&mut self) {
        if !self.put {
            let _ = fs::remove_file(&self.beside);
        }
    }
}

/// Whether the open file still has this name: whoever had the lock before may have renamed or removed it.
fn is_at(file: &File, name: &Path) -> io::Result<bool> {
    let ours = file.metadata()?;
    match fs::metadata(name) {
        Ok(there) => Ok((there.dev(), there.ino()) == (ours.dev(), ours.ino())),
        Err(why) if why.kind() == io::ErrorKind::NotFound => Ok(false),
        Err(why) => Err(why),
    }
}
