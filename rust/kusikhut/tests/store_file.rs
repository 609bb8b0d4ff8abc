//! A store that lives in a file: what is handed out is on the disk, whoever else works on it.
use kusikhut::{Format, Mode, Store, StoreFault, StoreFile, STORE_SIZE};
use std::fmt::Debug;
use std::fs;
use std::io::ErrorKind;
use std::os::unix::fs::PermissionsExt;
use std::path::{Path, PathBuf};

const CEN: [u8; 8] = [0xAE, 0x0C, 0x78, 0x56, 0x34, 0x12, 0x01, 0x07];

/// An empty folder of the test's own.
fn folder(name: &str) -> PathBuf {
    let folder = Path::new(env!("CARGO_TARGET_TMPDIR")).join(name);
    let _ = fs::remove_dir_all(&folder);
    fs::create_dir_all(&folder).expect("cargo's folder can be written");
    folder
}

/// The names in a folder.
fn names(folder: &Path) -> Vec<String> {
    let entries = fs::read_dir(folder).expect("the folder is there");
    let name = |entry: std::io::Result<fs::DirEntry>| entry.expect("it is there").file_name().to_string_lossy().into();
    let mut names: Vec<String> = entries.map(name).collect();
    names.sort();
    names
}

fn refused<T: Debug>(answer: Result<T, StoreFault>) -> String {
    match answer {
        Err(StoreFault::Refused(refusal)) => refusal.to_string(),
        other => panic!("no refusal: {other:?}"),
    }
}

fn fault<T: Debug>(answer: Result<T, StoreFault>) -> ErrorKind {
    match answer {
        Err(StoreFault::File(why)) => why.kind(),
        other => panic!("no fault of the file: {other:?}"),
    }
}

/// A new store with one meter that is sure, at number 7.
fn one_meter(path: &Path) -> StoreFile {
    let store = StoreFile::create(path).expect("it is new");
    store.add(CEN, Mode::T, Format::A).expect("there is room");
    store.hear(CEN, 7).expect("it is held");
    store
}

#[test]
fn what_is_handed_out_is_on_the_disk() {
    let folder = folder("on_the_disk");
    let path = folder.join("store");
    let store = one_meter(&path);
    assert_eq!(store.issue(CEN).expect("it is sure"), 8);
    let bytes = fs::read(&path).expect("it is there");
    assert_eq!((bytes.len(), &bytes[22..26], bytes[27]), (28, &[0, 0, 0, 8][..], 0));
    let again = StoreFile::open(&path).expect("it is a store");
    assert_eq!(again.issue(CEN).expect("it is sure"), 9);
    assert_eq!(store.issue(CEN).expect("it is sure"), 10);
    again.set_allowance(3).expect("any number is right");
    assert_eq!(store.settings().expect("it is a store").allowance, 3);
    assert_eq!(names(&folder), ["store"]);
}

#[test]
fn a_refusal_leaves_the_file_and_nothing_beside_it() {
    let folder = folder("refusal");
    let path = folder.join("store");
    let store = one_meter(&path);
    let before = fs::read(&path).expect("it is there");
    assert_eq!(refused(store.issue([0; 8])), "19 not-held");
    assert_eq!(refused(store.restore(&[])), "17 malformed-store");
    assert_eq!((fs::read(&path).expect("it is there"), names(&folder)), (before, vec!["store".to_string()]));
}

#[test]
fn a_file_that_is_no_running_store_is_refused() {
    let path = folder("no_store").join("store");
    let good = {
        one_meter(&path);
        fs::read(&path).expect("it is there")
    };
    let opened = |bytes: &[u8]| {
        fs::write(&path, bytes).expect("it can be written");
        refused(StoreFile::open(&path))
    };
    assert_eq!(opened(&[]), "17 malformed-store");
    assert_eq!(opened(&good[..27]), "17 malformed-store");
    assert_eq!(opened(&[&good[..], &[0]].concat()), "17 malformed-store");
    assert_eq!(opened(&[2; 2 * STORE_SIZE]), "17 malformed-store");
    assert_eq!(opened(&[2]), "17 malformed-store");
    // another version is told before all else that is wrong, missing bytes and bytes left over among it
    assert_eq!(opened(&[3]), "18 unknown-version");
    assert_eq!(opened(&[&[3], &good[1..27]].concat()), "18 unknown-version");
    assert_eq!(opened(&[3; 2 * STORE_SIZE]), "18 unknown-version");
    // version 1 is a backup's: it has to be restored
    assert_eq!(opened(&[1, 1, 0]), "18 unknown-version");
    assert_eq!(opened(&[1]), "18 unknown-version");
    assert_eq!(fault(StoreFile::open(&path.with_file_name("none"))), ErrorKind::NotFound);
}

#[test]
fn no_file_is_written_over() {
    let folder = folder("written_over");
    let path = folder.join("store");
    let store = one_meter(&path);
    let before = fs::read(&path).expect("it is there");
    assert_eq!(fault(StoreFile::create(&path)), ErrorKind::AlreadyExists);
    assert_eq!(fault(store.back_up(&path)), ErrorKind::AlreadyExists);
    assert_eq!(fs::read(&path).expect("it is there"), before);
    store.back_up(&folder.join("backup")).expect("it is new");
    assert_eq!((fs::read(folder.join("backup")).expect("it is there"), names(&folder).len()), (before, 2));
    // the name of a file that is being written is no store's
    assert_eq!(fault(StoreFile::create(&folder.join("other.being-written"))), ErrorKind::InvalidInput);
    assert_eq!(fault(StoreFile::create(&folder.join("none/store"))), ErrorKind::NotFound);
    assert_eq!(fault(StoreFile::create(Path::new("/"))), ErrorKind::InvalidInput);
    assert_eq!(names(&folder), ["backup", "store"]);
}

#[test]
fn what_a_killed_program_left_does_no_harm() {
    let folder = folder("left_over");
    let path = folder.join("store");
    let store = one_meter(&path);
    fs::write(folder.join("store.being-written"), [2; 5000]).expect("it can be written");
    assert_eq!(store.issue(CEN).expect("it is sure"), 8);
    assert_eq!((fs::read(&path).expect("it is there").len(), names(&folder)), (28, vec!["store".to_string()]));
}

#[test]
fn a_link_leads_to_the_one_store() {
    let folder = folder("link");
    let path = folder.join("store");
    let store = one_meter(&path);
    fs::set_permissions(&path, fs::Permissions::from_mode(0o640)).expect("it is ours");
    let link = folder.join("link");
    std::os::unix::fs::symlink("store", &link).expect("it is new");
    assert_eq!(StoreFile::open(&link).expect("it is a store").issue(CEN).expect("it is sure"), 8);
    assert_eq!(store.issue(CEN).expect("it is sure"), 9);
    assert!(fs::symlink_metadata(&link).expect("it is there").is_symlink());
    assert_eq!(fs::metadata(&path).expect("it is there").permissions().mode() & 0o777, 0o640);
    // the gate could not run again here: rt refuses links anywhere in a checkout
    fs::remove_file(&link).expect("it is ours");
}

#[test]
fn a_restore_tells_what_was_and_what_is() {
    let folder = folder("restore");
    let store = one_meter(&folder.join("store"));
    let mut backup = Store::empty();
    backup.add(CEN, Mode::C, Format::B).expect("there is room");
    backup.hear(CEN, 3).expect("it is held");
    backup.set_allowance(9);
    let told = store.restore(&backup.bytes()).expect("it was written by a store");
    assert_eq!((told.before.allowance, told.before.meters[0].mode), (16384, Mode::T));
    assert_eq!((told.after.allowance, told.after.meters[0].mode), (9, Mode::C));
    assert_eq!((told.after.meters[0].number, told.after.meters[0].unsure), (7, false));
    assert_eq!(store.settings().expect("it is a store"), told.after);
}

/// Four at once: no number is handed out twice, and none is lost.
#[test]
fn programs_that_share_a_store_lose_nothing() {
    const EACH: u32 = 50;
    let path = folder("shared").join("store");
    one_meter(&path);
    let issuing = || {
        let store = StoreFile::open(&path).expect("it is a store");
        (0..EACH).map(|_| store.issue(CEN).expect("it is sure")).collect::<Vec<u32>>()
    };
    let mut numbers: Vec<u32> = std::thread::scope(|scope| {
        let threads: Vec<_> = (0..4).map(|_| scope.spawn(issuing)).collect();
        threads.into_iter().flat_map(|thread| thread.join().expect("it ends")).collect()
    });
    numbers.sort();
    assert_eq!(numbers, (8..8 + 4 * EACH).collect::<Vec<u32>>());
}
