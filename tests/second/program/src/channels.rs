//! The mode N channel plan (10.2, Table 21).

use crate::answer::Refusal;

/// One row of Table 21, in hertz: whole numbers, nothing to round.
#[derive(Clone, Copy, Debug, PartialEq, Eq)]
pub struct Row {
    pub band: char,
    pub index: usize,
    pub first: u64,
    pub spacing: u64,
    pub tolerance: u64,
    pub channels: usize,
}

/// Hertz in a quarter kilohertz. Every number of Table 21 is a whole multiple.
pub const QUARTER: u64 = 250;

const fn row(
    band: char,
    index: usize,
    first: u64,
    spacing: u64,
    tolerance: u64,
    channels: usize,
) -> Row {
    Row {
        band,
        index,
        first,
        spacing,
        tolerance,
        channels,
    }
}

/// Table 21. Where a row has more than one channel, its step is its spacing.
pub const TABLE_21: [Row; 13] = [
    row('A', 1, 169_406_250, 12_500, 2_000, 6),
    row('A', 2, 169_406_250, 12_500, 1_500, 6),
    row('A', 3, 169_406_250, 12_500, 1_500, 6),
    row('A', 4, 169_437_500, 50_000, 2_500, 1),
    row('B', 5, 169_481_250, 12_500, 2_000, 1),
    row('B', 6, 169_481_250, 12_500, 1_500, 1),
    row('C', 7, 169_493_750, 12_500, 1_500, 8),
    row('C', 8, 169_493_750, 12_500, 1_500, 8),
    row('C', 9, 169_493_750, 12_500, 1_500, 8),
    row('D', 10, 169_593_750, 12_500, 2_000, 18),
    row('D', 11, 169_593_750, 12_500, 1_500, 18),
    row('D', 12, 169_593_750, 12_500, 1_500, 18),
    row('D', 13, 169_625_000, 50_000, 2_500, 4),
];

/// The row with an index, if there is one.
pub fn row_of(index: usize) -> Option<Row> {
    TABLE_21.into_iter().find(|row| row.index == index)
}

/// The centre of a channel in hertz; 13 if there is no such channel.
pub fn centre(index: usize, channel: usize) -> Result<u64, Refusal> {
    let row = row_of(index).ok_or(Refusal::NoSuchChannel)?;
    if channel >= row.channels {
        return Err(Refusal::NoSuchChannel);
    }
    Ok(row.first + channel as u64 * row.spacing)
}

/// The lines of the band that an input names: index, channel, hertz, index then
/// channel ascending. An input names a band when it is exactly one capital
/// letter A to D with at most one line feed; any other has no line.
pub fn band_lines(input: &[u8]) -> Vec<[u64; 3]> {
    let band = match input {
        [letter @ b'A'..=b'D'] | [letter @ b'A'..=b'D', b'\n'] => *letter as char,
        _ => return Vec::new(),
    };
    let mut lines = Vec::new();
    for row in TABLE_21.into_iter().filter(|row| row.band == band) {
        for channel in 0..row.channels as u64 {
            let hertz = row.first + channel * row.spacing;
            lines.push([row.index as u64, channel, hertz]);
        }
    }
    lines
}

/// One line of a band's list, counted from 0; 13 where there is none.
pub fn band_line(input: &[u8], k: usize) -> Result<[u64; 3], Refusal> {
    let lines = band_lines(input);
    lines.get(k).copied().ok_or(Refusal::NoSuchChannel)
}

/// What the band program prints for its standard input: the list, or else the
/// one line of refusal. No band has an empty list.
pub fn band_listing(input: &[u8]) -> String {
    let lines = band_lines(input);
    if lines.is_empty() {
        return "no such band\n".to_string();
    }
    let mut text = "index channel hz\n".to_string();
    for [index, channel, hertz] in lines {
        text.push_str(&format!("{index} {channel} {hertz}\n"));
    }
    text
}

/// A number of kilohertz as quarter kilohertz, or nothing if it is not exactly
/// a whole number of them. For an implementation that answers floats: rounding
/// there would hide just the difference that is looked for. A zero with a sign
/// is not the zero that "nothing" means, and is none either.
pub fn quarters(kilohertz: f64) -> Option<u64> {
    let quarters = kilohertz * 4.0;
    let whole = quarters.fract() == 0.0 && quarters.is_sign_positive();
    if whole && (0.0..=9_007_199_254_740_992.0).contains(&quarters) {
        Some(quarters as u64)
    } else {
        None
    }
}
