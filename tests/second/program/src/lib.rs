//! The second program: the collector's link layer, written a second time from
//! document 01 ("Link layer rules for the collector"), EN 13757-4:2019, and
//! requests 2/14, 9/14, 11/14 and 12/14 of document 02 ("Soft addresses", "Settings
//! that keep a backup honest", "Correction bytes for update frames", "Mending,
//! proposed and checked").
//!
//! It exists to be compared with the proved library. Its value lies in being
//! independent and obvious, so it is slow on purpose: chips are lists of
//! `bool`, a check is a long division on a list of bits, a changed frame is
//! read and written again. "01" in a comment is document 01; "2/14" is that
//! request of document 02, and so are "9/14", "11/14" and "12/14"; bare numbers
//! such as 12.5.3 are clauses of the standard.
//!
//! Each operation first works out its whole result in memory of its own and
//! touches the lent memory last. So a refusal leaves the lent memory as it was.

pub mod answer;
pub mod channels;
pub mod check;
pub mod chips;
pub mod correction;
pub mod decoding;
pub mod filter;
pub mod frames;
pub mod headers;
pub mod mending;
pub mod radio;
pub mod reader;
pub mod store;
pub mod sync;

pub mod case;
pub mod compare;
pub mod generator;
pub mod hidden;
pub mod implementation;
pub mod patterns;
pub mod promise;
pub mod random;
pub mod sequences;

#[cfg(test)]
mod tests;
