//! Correction bytes for update frames (EN 13757-4:2019, 12.8): behind a frame a header of two bytes and 32 check bytes
//! of Reed-Solomon (255, 223). They make no frame accepted: a received frame is judged as always, with or without them.
//! docs/CORRECTION.md says what a caller has to know before use, the modes of Table 41 and a patent among it.
use crate::{raw, written, Format, Refusal};

/// How many correction bytes a frame gets: the header and the check bytes.
pub const CORRECTION_SIZE: usize = 34;

impl Format {
    /// Writes the frame that `bytes` begin with, and its correction bytes behind it, to the start of `out`; gives the
    /// number of bytes written, [`CORRECTION_SIZE`] more than the frame has. What reading refuses is refused, and so is
    /// a frame of over 223 bytes.
    ///
    /// ```
    /// use kusikhut::{Format, CORRECTION_SIZE};
    ///
    /// // Annex C.2
    /// let content = [0x44, 0xAE, 0x0C, 0x78, 0x56, 0x34, 0x12, 0x01, 0x07, 0x78, 0x0B, 0x13, 0x43, 0x65, 0x87];
    /// let (mut frame, mut out) = ([0; 20], [0; 20 + CORRECTION_SIZE]);
    /// Format::A.write(&content, &mut frame)?;
    /// assert_eq!(Format::A.write_correction(&frame, &mut out)?, 54);
    /// assert_eq!(out[..20], frame);
    /// assert_eq!(out[20..24], [0x21, 0x04, 0x84, 0xEA]);
    ///
    /// frame[19] ^= 1;
    /// let refusal = Format::A.write_correction(&frame, &mut out).unwrap_err();
    /// assert_eq!(refusal.to_string(), "3 wrong-check block=2");
    /// # Ok::<(), kusikhut::Refusal>(())
    /// ```
    pub fn write_correction(self, bytes: &[u8], out: &mut [u8]) -> Result<u64, Refusal> {
        let call = match self {
            Format::A => raw::kusikhut_correction_write_a,
            Format::B => raw::kusikhut_correction_write_b,
        };
        written(call, bytes, out)
    }
}

/// Writes the 32 check bytes of any word of at most 223 bytes to the start of `out`, that of the highest power first;
/// gives their number. Zero bytes before the word do not change them, but count among the 223.
///
/// ```
/// let (mut checks, mut filled) = ([0; 32], [0; 32]);
/// assert_eq!(kusikhut::check_bytes(&[0x0F, 0x44], &mut checks)?, 32);
/// kusikhut::check_bytes(&[0, 0, 0x0F, 0x44], &mut filled)?;
/// assert_eq!(checks, filled);
///
/// let refusal = kusikhut::check_bytes(&[0; 224], &mut checks).unwrap_err();
/// assert_eq!(refusal.number(), 23);
/// # Ok::<(), kusikhut::Refusal>(())
/// ```
pub fn check_bytes(word: &[u8], out: &mut [u8]) -> Result<u64, Refusal> {
    written(raw::kusikhut_correction_check_bytes, word, out)
}

/// Accepted if the correction header at the start of `bytes` announces check bytes of Reed-Solomon (255, 223). Each bit
/// of its ID is what two or three of the three copies say, and bit 15 is not looked at (12.8.2.2).
///
/// ```
/// use kusikhut::read_correction_header;
///
/// assert!(read_correction_header(&[0x21, 0x04]).is_ok());
/// assert!(read_correction_header(&[0x20, 0x04]).is_ok(), "one copy is wrong");
/// assert_eq!(read_correction_header(&[0x00, 0x04]).unwrap_err().number(), 24, "two are");
/// ```
pub fn read_correction_header(bytes: &[u8]) -> Result<(), Refusal> {
    // Sound: the slice is valid for its length.
    match unsafe { raw::kusikhut_correction_header(bytes.as_ptr(), bytes.len()) } {
        0 => Ok(()),
        number => Err(Refusal::of(number, &[])),
    }
}
