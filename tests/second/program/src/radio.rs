//! From received chips to a content, and from a content to chips to send.

use crate::answer::Refusal;
use crate::chips::{decode_list, encode_list, judge_received, list_of, packed, put};
use crate::frames::{frame_of, read, Sizes};
use crate::sync::{after_sync, search, Kind};

/// What an accepted reception says besides the content.
#[derive(Clone, Copy, Debug, PartialEq, Eq)]
pub struct Reception {
    pub kind: Kind,
    /// Place of the sync; for Manchester the start that the caller named.
    pub place: usize,
    /// Positions tried; for Manchester 0, there being no search.
    pub tried: usize,
    pub sizes: Sizes,
}

/// Receiving in mode T or C. Order: 10; 7 or 14; sync tail 1, 8; then the
/// frame's. Only the first match is followed.
pub fn receive(
    chips: &[u8],
    start: usize,
    allowance: usize,
    out: &mut [u8],
) -> Result<Reception, Refusal> {
    let found = search(chips, start, allowance)?;
    let list = list_of(chips);
    let (kind, frame_place) = after_sync(&list, found.place)?;
    let sizes = receive_frame(kind, &list[frame_place..], out)?;
    Ok(Reception {
        kind,
        place: found.place,
        tried: found.tried,
        sizes,
    })
}

/// Receiving a Manchester frame at a place. Order: 10; then the frame's.
pub fn receive_manchester(
    chips: &[u8],
    start: usize,
    out: &mut [u8],
) -> Result<Reception, Refusal> {
    judge_received(chips, start)?;
    let kind = Kind::ManchesterWithA;
    let sizes = receive_frame(kind, &list_of(chips)[start..], out)?;
    Ok(Reception {
        kind,
        place: start,
        tried: 0,
        sizes,
    })
}

/// The frame at the front of a list of chips.
/// Order: first byte 1, 6; 2; rest of the frame 1, 6; 3; 4.
fn receive_frame(kind: Kind, list: &[bool], out: &mut [u8]) -> Result<Sizes, Refusal> {
    let first_byte = decode_list(kind.code(), list, 1)?;
    let sizes = kind.format().sizes(first_byte[0])?;
    // The words of the first byte are known to be good. So decoding the whole
    // frame refuses just where its rest does, and counts from its first word.
    let frame = decode_list(kind.code(), list, sizes.frame)?;
    read(kind.format(), &frame, out)
}

/// Sending one of the four kinds. Order: 5, 4. Answers the bytes written: sync
/// chips, then the frame, unused chips of the last byte 0.
pub fn send(kind: Kind, content: &[u8], out: &mut [u8]) -> Result<usize, Refusal> {
    let frame = frame_of(kind.format(), content)?;
    let mut list = kind.sync_chips();
    list.extend(encode_list(kind.code(), &frame));
    put(&packed(&list), out)
}
