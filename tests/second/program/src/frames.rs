//! Frames in format A (12.3) and format B (12.4): reading, writing, changing.

use crate::answer::Refusal;
use crate::check::check_bytes;
use crate::chips::put;

/// The two frame formats. The numbers are those of the text form of a case.
#[derive(Clone, Copy, Debug, PartialEq, Eq)]
pub enum Format {
    A = 0,
    B = 1,
}

/// Sizes of an accepted frame: the whole frame, and its content (n).
#[derive(Clone, Copy, Debug, PartialEq, Eq)]
pub struct Sizes {
    pub frame: usize,
    pub content: usize,
}

impl Format {
    pub const ALL: [Format; 2] = [Format::A, Format::B];

    /// The shortest content: C, M, A and one byte of body (01, house rule).
    pub const SHORTEST: usize = 10;

    /// The longest content.
    pub fn longest(self) -> usize {
        match self {
            Format::A => 255,
            Format::B => 251,
        }
    }

    /// L for a content of n bytes; refusal 5 if there is no such frame.
    pub fn length_byte(self, n: usize) -> Result<u8, Refusal> {
        if n < Format::SHORTEST || n > self.longest() {
            return Err(Refusal::ContentLength);
        }
        let length = match self {
            // 12.5.3: format A leaves the checks out of L.
            Format::A => n,
            // 12.5.3: format B counts them, one check or two.
            Format::B if n <= 125 => n + 2,
            Format::B => n + 4,
        };
        Ok(length as u8)
    }

    /// For each block the number of bytes under its check, L being one of the
    /// first block's; refusal 2 if L is not allowed.
    pub fn blocks(self, length: u8) -> Result<Vec<usize>, Refusal> {
        let length = length as usize;
        match self {
            Format::A if length >= 10 => Ok(blocks_of_a(length)),
            Format::B if (12..=127).contains(&length) => Ok(vec![length - 1]),
            // Table 32: the optional block has L − 129 bytes.
            Format::B if length >= 130 => Ok(vec![126, length - 129]),
            _ => Err(Refusal::LengthNotAllowed),
        }
    }

    /// The sizes that follow from L; refusal 2 if L is not allowed.
    pub fn sizes(self, length: u8) -> Result<Sizes, Refusal> {
        let blocks = self.blocks(length)?;
        let checked: usize = blocks.iter().sum();
        Ok(Sizes {
            frame: checked + 2 * blocks.len(),
            content: checked - 1,
        })
    }
}

/// 12.5.3: ten bytes, then sixteen each, the last perhaps shorter.
fn blocks_of_a(length: usize) -> Vec<usize> {
    let mut blocks = vec![10];
    let mut body = length - 9;
    while body > 16 {
        blocks.push(16);
        body -= 16;
    }
    blocks.push(body);
    blocks
}

/// The frame for a content; refusal 5.
pub fn frame_of(format: Format, content: &[u8]) -> Result<Vec<u8>, Refusal> {
    let length = format.length_byte(content.len())?;
    let mut checked = vec![length];
    checked.extend(content);

    let mut frame = Vec::new();
    let mut place = 0;
    for size in format.blocks(length)? {
        let block = &checked[place..place + size];
        frame.extend(block);
        frame.extend(check_bytes(block));
        place += size;
    }
    Ok(frame)
}

/// The content of the frame at the front of a buffer, and the frame's sizes.
/// Order: 1 for an empty buffer, 2, 1, 3.
pub fn content_of(format: Format, bytes: &[u8]) -> Result<(Vec<u8>, Sizes), Refusal> {
    let &length = bytes.first().ok_or(Refusal::Ends)?;
    let sizes = format.sizes(length)?;
    if bytes.len() < sizes.frame {
        return Err(Refusal::Ends);
    }
    let mut checked = Vec::new();
    let mut place = 0;
    for (index, size) in format.blocks(length)?.into_iter().enumerate() {
        let block = &bytes[place..place + size];
        if bytes[place + size..place + size + 2] != check_bytes(block) {
            return Err(Refusal::WrongCheck { block: index + 1 });
        }
        checked.extend(block);
        place += size + 2;
    }
    // The first checked byte is L, the others are the content.
    Ok((checked[1..].to_vec(), sizes))
}

/// Reading. Order: 1 for an empty buffer, 2, 1, 3, 4.
pub fn read(format: Format, bytes: &[u8], out: &mut [u8]) -> Result<Sizes, Refusal> {
    let (content, sizes) = content_of(format, bytes)?;
    put(&content, out)?;
    Ok(sizes)
}

/// Writing. Order: 5, 4. Answers the frame size.
pub fn write(format: Format, content: &[u8], out: &mut [u8]) -> Result<usize, Refusal> {
    let frame = frame_of(format, content)?;
    put(&frame, out)
}

/// Changing one byte of a finished frame. Order: the frame's 1, 2, 3, then 9.
/// Answers the frame's sizes, as reading it does.
///
/// What the frame must be afterwards is what the writer makes of the changed
/// content; so the content is read, changed and written again. n stays, and
/// with it L and the size.
pub fn change(format: Format, frame: &mut [u8], place: usize, byte: u8) -> Result<Sizes, Refusal> {
    let (mut content, sizes) = content_of(format, frame)?;
    if place >= content.len() {
        return Err(Refusal::NoSuchPlace);
    }
    content[place] = byte;
    write(format, &content, frame)?;
    Ok(sizes)
}
