//! The parts of a frame by their names: the fields of the link layer (12.5), and the blocks with their checks (12.3, 12.4).
//! Where the blocks end is said here once more, for the drawing alone; a test compares it with what the library writes.
use crate::anatomy::Cell;
use crate::numbers;
use kusikhut::{Format, Header};
use std::ops::Range;

/// What a byte of a frame is.
#[derive(Clone, Copy, Debug, PartialEq, Eq)]
pub enum Field {
    L,
    C,
    M,
    A,
    Ci,
    /// A field of the extended header behind CI, by its name.
    Extended(&'static str),
    Data,
    Check,
    /// Behind a length byte that does not tell where the frame's parts are.
    NotJudged,
}

/// The blocks of a frame of so many bytes: each is its span and, behind it, two bytes of check.
pub fn blocks(format: Format, size: usize) -> Vec<Range<usize>> {
    let (first, others) = match format {
        Format::A => (12, 18),
        Format::B => (128, 128),
    };
    let starts = std::iter::once(0).chain((first..size).step_by(others));
    starts.map(|start| start..size.min(if start == 0 { first } else { start + others })).collect()
}

/// The check that the span of a block gives, and the check that stands behind it, if all its bytes are there.
pub fn checks(cells: &[Cell]) -> Option<(u16, u16)> {
    let bytes: Vec<u8> = cells.iter().map_while(|&cell| byte(cell)).collect();
    let (span, check) = bytes.split_at_checked(cells.len() - 2)?;
    Some((kusikhut::check(span), u16::from_be_bytes(check.try_into().ok()?)))
}

/// What each byte of a frame is. Without blocks nothing can be said of the bytes behind the length byte.
pub fn fields(cells: &[Cell], blocks: &[Range<usize>]) -> Vec<Field> {
    let is_check = |at: usize| blocks.iter().any(|block| block.contains(&at) && at + 2 >= block.end);
    let body = (1..cells.len()).filter(|&at| !is_check(at)).skip(BEFORE_BODY);
    // CI alone tells how long a header is: bytes of it that did not come have their names too.
    let extended = extended(&body.map(|at| byte(cells[at]).unwrap_or(0)).collect::<Vec<u8>>());
    let mut content = 0;
    let field = |at: usize| match at {
        0 => Field::L,
        _ if blocks.is_empty() => Field::NotJudged,
        at if is_check(at) => Field::Check,
        _ => {
            content += 1;
            of_content(content - 1, &extended)
        }
    };
    (0..cells.len()).map(field).collect()
}

const NEXT: &str = "next CI";

/// C, M and A.
const BEFORE_BODY: usize = 9;

fn byte(cell: Cell) -> Option<u8> {
    if let Cell::Byte(byte) = cell {
        Some(byte)
    } else {
        None
    }
}

fn of_content(place: usize, extended: &[&'static str]) -> Field {
    match place {
        0 => Field::C,
        1..=2 => Field::M,
        3..BEFORE_BODY => Field::A,
        BEFORE_BODY => Field::Ci,
        _ => extended.get(place - BEFORE_BODY - 1).map_or(Field::Data, |&name| Field::Extended(name)),
    }
}

/// The names of the bytes behind CI, if the body begins with an extended header. Behind one that encrypts nothing stands
/// the CI of the next layer.
fn extended(body: &[u8]) -> Vec<&'static str> {
    let named: &[(&str, usize)] = match Header::read(body) {
        Ok((Header::Plain { .. }, _)) => &[("CC", 1), ("ACC", 1), (NEXT, 1)],
        Ok((Header::Secured { .. }, _)) => &[("CC", 1), ("ACC", 1), ("SN", 4), ("CRC", 2)],
        Ok((Header::Addressed { .. }, _)) => &[("CC", 1), ("ACC", 1), ("M2", 2), ("A2", 6), (NEXT, 1)],
        Ok((Header::AddressedSecured { .. }, _)) => {
            &[("CC", 1), ("ACC", 1), ("M2", 2), ("A2", 6), ("SN", 4), ("CRC", 2)]
        }
        Err(refusal) if refusal.number() == numbers::BODY_TOO_SHORT => {
            &[("header, not whole", body.len().saturating_sub(1))]
        }
        Err(_) => &[],
    };
    named.iter().flat_map(|&(name, bytes)| std::iter::repeat_n(name, bytes)).collect()
}

#[cfg(test)]
mod tests {
    use super::*;

    fn cells(bytes: &[u8]) -> Vec<Cell> {
        bytes.iter().map(|&byte| Cell::Byte(byte)).collect()
    }

    /// Of every frame that there is: the checks stand where the blocks end, and all else behind L is content.
    #[test]
    fn blocks_are_the_librarys() {
        for (format, most) in [(Format::A, 255), (Format::B, 251)] {
            for n in 10..=most {
                let content: Vec<u8> = (0..n).map(|k| (7 * k + 3) as u8).collect();
                let mut frame = [0; 290];
                let size = format.write(&content, &mut frame).expect("it has room") as usize;
                let cells = cells(&frame[..size]);
                let blocks = blocks(format, size);
                assert_eq!(blocks.last().expect("there is one").end, size);
                for block in &blocks {
                    let (given, there) = checks(&cells[block.clone()]).expect("all bytes are there");
                    assert_eq!(given, there, "{format:?} {n} {block:?}");
                }
                let fields = fields(&cells, &blocks);
                let of_content = (1..size).filter(|&at| fields[at] != Field::Check).map(|at| frame[at]);
                assert!(of_content.eq(content), "{format:?} {n}");
            }
        }
    }

    /// The names of an extended header are as many as its bytes.
    #[test]
    fn extended_headers_are_named() {
        for ci in [0x8C, 0x8D, 0x8E, 0x8F] {
            let body = [ci; 30];
            let (_, size) = Header::read(&body).expect("it is a header");
            let named = extended(&body).into_iter().filter(|&name| name != NEXT);
            assert_eq!(named.count() as u64 + 1, size, "{ci:X}");
        }
        assert!(extended(&[0x78, 1]).is_empty() && extended(&[]).is_empty());
        assert_eq!(extended(&[0x8C, 1]), ["header, not whole"]);
    }
}
