//! The mode N channel plan.
use crate::{raw, told, Refusal};

/// A row of Table 21, in kilohertz.
#[derive(Clone, Copy, Debug, PartialEq)]
pub struct Row {
    pub centre: f64,
    pub spacing: f64,
    pub tolerance: f64,
}

/// The row of an index; zeros where there is none.
pub fn row(index: usize) -> Row {
    let mut r = [0f64; 3];
    // Sound: `r` is borrowed for this call alone.
    unsafe { raw::kusikhut_row(index, r.as_mut_ptr()) };
    Row { centre: r[0], spacing: r[1], tolerance: r[2] }
}

/// A channel's centre in kilohertz.
pub fn centre(index: usize, channel: usize) -> Result<f64, Refusal> {
    let mut r = [0f64; 1];
    // Sound: `r` is borrowed for this call alone.
    match unsafe { raw::kusikhut_centre(index, channel, r.as_mut_ptr()) } {
        0 => Ok(r[0]),
        number => Err(Refusal::of(number, &[])),
    }
}

/// A line of a band's list.
#[derive(Clone, Copy, Debug, PartialEq, Eq)]
pub struct BandLine {
    pub index: u64,
    pub channel: u64,
    pub hertz: u64,
}

/// Line `k`, from 0, of the list of the band that the input names: one capital letter A to D, at most one line feed.
pub fn band_line(band: &[u8], k: usize) -> Result<BandLine, Refusal> {
    // Sound: the slice is valid for its length, and `told` lends three results.
    told(
        |r| unsafe { raw::kusikhut_band_line(band.as_ptr(), band.len(), k, r) },
        |[index, channel, hertz]| BandLine { index, channel, hertz },
    )
}
