//! What stands where in a reception, as far as it came, of a refused one too: sync word, kind, and the frame's bytes one by
//! one. All of it is found by calls of the library, so that nothing here decides what a frame is.
use crate::commands::line::chips_a_byte;
use crate::commands::radio::{code_of, format_of};
use crate::numbers;
use crate::reply::Missing;
use kusikhut::{Code, Format, Kind};

/// The chips of a sync word, and of the tail behind it.
pub const SYNC: usize = 16;

/// A frame in chips.
pub struct OnAir<'a> {
    pub chips: &'a [u8],
    /// Where the search begins, or the frame itself.
    pub start: usize,
    /// Where the sync word stands; a Manchester frame has none.
    pub sync: Option<usize>,
    pub frame: Option<Placed>,
}

/// A kind of frame, and its first chip.
#[derive(Clone, Copy)]
pub struct Placed {
    pub kind: Kind,
    pub first: usize,
}

/// One byte of a frame.
#[derive(Clone, Copy, Debug, PartialEq, Eq)]
pub enum Cell {
    Byte(u8),
    /// Its chips are there, and not all of their words stand for something.
    NoByte,
    Missing,
}

impl<'a> OnAir<'a> {
    /// What the search finds.
    pub fn searched(chips: &'a [u8], start: usize, allowance: usize) -> OnAir<'a> {
        let sync = kusikhut::search(chips, start, allowance).ok().map(|found| found.place as usize);
        OnAir { chips, start, sync, frame: sync.and_then(|place| behind(chips, place)) }
    }

    /// A Manchester frame at a named chip.
    pub fn named(chips: &'a [u8], start: usize) -> OnAir<'a> {
        OnAir { chips, start, sync: None, frame: Some(Placed { kind: Kind::ManchesterWithA, first: start }) }
    }

    pub fn count(&self) -> usize {
        8 * self.chips.len()
    }

    /// How many chips are missing to the frame's end, or before it is known where that is.
    pub fn missing(&self) -> Missing {
        let to = |end: usize| end.saturating_sub(self.count()) as u64;
        let Some(frame) = self.frame else {
            return Missing::AtLeast(self.sync.map_or(0, |sync| to(sync + 2 * SYNC)));
        };
        let bytes = |count: usize| to(frame.first + count * frame.chips_a_byte());
        match self.length_byte().and_then(|l| format_of(frame.kind).frame_size(l).ok()) {
            Some(size) => Missing::Exactly(bytes(size as usize)),
            None => Missing::AtLeast(bytes(1)),
        }
    }

    pub fn length_byte(&self) -> Option<u8> {
        self.frame.and_then(|frame| if let Cell::Byte(l) = self.cell(frame, 0) { Some(l) } else { None })
    }

    /// The frame's bytes: as many as its length byte says, or a few where that says nothing.
    pub fn cells(&self) -> Option<Vec<Cell>> {
        self.frame.map(|frame| cells(format_of(frame.kind), |k| self.cell(frame, k)))
    }

    fn cell(&self, frame: Placed, k: usize) -> Cell {
        let (at, mut byte) = (frame.first + k * frame.chips_a_byte(), [0]);
        match code_of(frame.kind).decode(self.chips, at, 1, &mut byte) {
            Ok(()) => Cell::Byte(byte[0]),
            Err(_) if at + frame.chips_a_byte() > self.count() => Cell::Missing,
            Err(_) => Cell::NoByte,
        }
    }
}

impl Placed {
    pub fn chips_a_byte(self) -> usize {
        chips_a_byte(code_of(self.kind)) as usize
    }
}

/// The cells of a frame that came as bytes.
pub fn of_bytes(format: Format, bytes: &[u8]) -> Vec<Cell> {
    cells(format, |k| bytes.get(k).map_or(Cell::Missing, |&byte| Cell::Byte(byte)))
}

/// How many bytes are shown of a frame whose length byte does not say how many it has.
const A_FEW: usize = 12;

fn cells(format: Format, cell: impl Fn(usize) -> Cell) -> Vec<Cell> {
    let size = match cell(0) {
        Cell::Byte(l) => format.frame_size(l).ok(),
        Cell::NoByte | Cell::Missing => None,
    };
    match size {
        Some(size) => (0..size as usize).map(cell).collect(),
        None => {
            let behind = (1..A_FEW).map(&cell).take_while(|&cell| cell != Cell::Missing);
            std::iter::once(cell(0)).chain(behind).collect()
        }
    }
}

/// The kind of the frame behind a sync word, if the chips behind it say one. A tail of mode C is known by what the library
/// itself sends there.
fn behind(chips: &[u8], sync: usize) -> Option<Placed> {
    let mut tail = [0; 2];
    Code::Nrz.decode(chips, sync + SYNC, tail.len(), &mut tail).ok()?;
    if kusikhut::receive(chips, sync, 1, &mut []).is_err_and(|refusal| refusal.number() == numbers::UNKNOWN_SYNC_TAIL) {
        return None;
    }
    let of_mode_c = [Kind::CWithA, Kind::CWithB].into_iter().find(|&kind| sent_tail(kind) == tail);
    Some(match of_mode_c {
        Some(kind) => Placed { kind, first: sync + 2 * SYNC },
        None => Placed { kind: Kind::TWithA, first: sync + SYNC },
    })
}

fn sent_tail(kind: Kind) -> [u8; 2] {
    let mut chips = [0; 64];
    kind.send(&[0; 10], &mut chips).expect("ten bytes are a content");
    [chips[2], chips[3]]
}

#[cfg(test)]
mod tests {
    use super::*;

    /// Whatever is cut off, exactly what is told as missing makes it whole: of each kind, at each length.
    #[test]
    fn what_is_missing_makes_it_whole() {
        for kind in [Kind::TWithA, Kind::CWithA, Kind::CWithB, Kind::ManchesterWithA] {
            let (content, mut sent) = ([0x5A; 30], [0; 600]);
            let size = kind.send(&content, &mut sent).expect("it has room") as usize;
            let on_air = |chips| match kind {
                Kind::ManchesterWithA => OnAir::named(chips, 0),
                _ => OnAir::searched(chips, 0, usize::MAX),
            };
            for came in 5..=size {
                let Missing::Exactly(missing) = on_air(&sent[..came]).missing() else {
                    panic!("{kind:?} {came}: the length byte is there");
                };
                assert_eq!((8 * came as u64 + missing).div_ceil(8), size as u64, "{kind:?} {came}");
            }
        }
    }

    #[test]
    fn short_of_a_tail() {
        assert_eq!(OnAir::searched(&[0x54, 0x3D, 0x5A], 0, 1).missing(), Missing::AtLeast(8));
        assert_eq!(OnAir::searched(&[0x54, 0x3D], 0, 1).missing(), Missing::AtLeast(16));
        assert_eq!(OnAir::named(&[0x9A], 0).missing(), Missing::AtLeast(8));
        assert_eq!(OnAir::searched(&[0; 4], 0, 9).missing(), Missing::AtLeast(0));
    }

    #[test]
    fn every_byte_is_seen() {
        let frame = [0x0F, 0x44, 0xAE];
        assert_eq!(
            of_bytes(Format::A, &frame)[..4],
            [Cell::Byte(0x0F), Cell::Byte(0x44), Cell::Byte(0xAE), Cell::Missing]
        );
        assert_eq!(of_bytes(Format::A, &frame).len(), 20);
        assert_eq!(of_bytes(Format::A, &[9, 1]), [Cell::Byte(9), Cell::Byte(1)]);
        assert_eq!(of_bytes(Format::A, &[]), [Cell::Missing]);
    }
}
