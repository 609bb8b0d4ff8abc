//! Frames as bytes, in formats A and B.
use crate::{raw, told, written, Refusal};

#[derive(Clone, Copy, Debug, PartialEq, Eq)]
pub enum Format {
    A,
    B,
}

/// An accepted frame: its size in bytes and the length of its content.
#[derive(Clone, Copy, Debug, PartialEq, Eq)]
pub struct Frame {
    pub size: u64,
    pub n: u64,
}

impl Format {
    /// The size of a frame whose length byte is `l`.
    pub fn frame_size(self, l: u8) -> Result<u64, Refusal> {
        let call: raw::Size = match self {
            Format::A => raw::kusikhut_frame_size_a,
            Format::B => raw::kusikhut_frame_size_b,
        };
        // Sound: it takes a number, and `told` lends it one result.
        told(|r| unsafe { call(l, r) }, |[size]| size)
    }

    /// Reads the frame at the start of `bytes`; its content comes to the start of `out`.
    pub fn read(self, bytes: &[u8], out: &mut [u8]) -> Result<Frame, Refusal> {
        let call: raw::BytesOut = match self {
            Format::A => raw::kusikhut_read_a,
            Format::B => raw::kusikhut_read_b,
        };
        // Sound: both slices are valid for their lengths, `out` is borrowed for this call alone, and `told` lends three
        // results.
        told(
            |r| unsafe { call(bytes.as_ptr(), bytes.len(), out.as_mut_ptr(), out.len(), r) },
            |[size, n, _block]| Frame { size, n },
        )
    }

    /// Writes `content` as a frame to the start of `out`; gives the frame's size.
    pub fn write(self, content: &[u8], out: &mut [u8]) -> Result<u64, Refusal> {
        let call = match self {
            Format::A => raw::kusikhut_write_a,
            Format::B => raw::kusikhut_write_b,
        };
        written(call, content, out)
    }

    /// Changes the content byte at `place` in the frame itself, with the check over it.
    pub fn change(self, frame: &mut [u8], place: usize, byte: u8) -> Result<Frame, Refusal> {
        let call: raw::Change = match self {
            Format::A => raw::kusikhut_change_a,
            Format::B => raw::kusikhut_change_b,
        };
        // Sound: the slice is valid for its length and borrowed for this call alone, and `told` lends three results.
        told(
            |r| unsafe { call(frame.as_mut_ptr(), frame.len(), place, byte, r) },
            |[size, n, _block]| Frame { size, n },
        )
    }
}
