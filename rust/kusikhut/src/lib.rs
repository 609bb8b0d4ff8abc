//! A safe wrapper of the proved wireless M-Bus link layer (EN 13757-4:2019).
//!
//! Every function takes any slices and numbers and answers: the accepted values, or the [`Refusal`] that docs/RULES.md
//! lists. A refusal leaves lent memory as it was. Nothing here decides anything: the proved library does. [`StoreFile`]
//! adds to it what no library of pure calls can have: a store that outlives the power.

mod address;
mod channels;
mod correction;
mod crc;
mod filter;
mod frame;
mod header;
mod line;
mod mending;
mod radio;
mod raw;
mod refusal;
mod replaced;
mod store;
mod store_file;
mod sync;

pub use address::{maker, Maker, Reach};
pub use channels::{band_line, centre, row, BandLine, Row};
pub use correction::{check_bytes, read_correction_header, CORRECTION_SIZE};
pub use crc::{check, update};
pub use filter::{wanted, Entries};
pub use frame::{Format, Frame};
pub use header::{access, Access, Header};
pub use line::Code;
pub use radio::{receive, receive_manchester, Received};
pub use refusal::{answer, answers, Answer, Refusal};
pub use store::{Meter, Mode, Settings, Store, STORE_SIZE};
pub use store_file::{read_store, Restored, StoreFault, StoreFile};
pub use sync::{search, Found, Kind};

/// Lends `call` a row of results; tells what `accepted` makes of the row, or the refusal.
fn told<T, const N: usize>(
    call: impl FnOnce(*mut u64) -> u8,
    accepted: impl FnOnce([u64; N]) -> T,
) -> Result<T, Refusal> {
    let mut results = [0; N];
    match call(results.as_mut_ptr()) {
        0 => Ok(accepted(results)),
        number => Err(Refusal::of(number, &results)),
    }
}

/// The shape that all writers share: bytes in, bytes out, the number of bytes written.
fn written(call: raw::BytesOut, bytes: &[u8], out: &mut [u8]) -> Result<u64, Refusal> {
    // Sound: both slices are valid for their lengths, and `out` is borrowed for this call alone.
    told(|r| unsafe { call(bytes.as_ptr(), bytes.len(), out.as_mut_ptr(), out.len(), r) }, |[size]| size)
}
