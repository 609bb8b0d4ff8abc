//! What came in place of a frame: which of its bits are inverted, and whether the proved promise covers that.
use super::frame::{reading, FORMATS, MOST_CONTENT};
use super::Command;
use crate::args::{Args, Lent};
use crate::fault::Fault;
use crate::notation::counted;
use crate::reply::{Below, Fields, Reply};
use kusikhut::Format;
use std::iter::once;
use std::ops::Range;

pub const COMMANDS: &[Command] = &[Command {
    name: "damage",
    usage: "FORMAT SENT CAME",
    does: "count the bits that came inverted, and whether a refusal is promised",
    more: "SENT is a frame, CAME what came in its place, with any bytes behind it. If SENT itself is refused, only that \
               is told; otherwise 0 is its own answer. Bits count from 0, the highest of the first byte first: how many \
               of the frame came inverted=, the place of the first=, within= how many consecutive bits all of them lie, \
               how many bytes are differing=, and whether length-byte-changed=. promised=yes: it is proved that such \
               damage is refused, whatever stands behind the frame. promised=no: the promise of docs/DAMAGE.md does not \
               cover it, which does not say that it is accepted. reading= is what reading CAME answers (help read), and \
               decides the exit status.",
    example: "damage A 0F44AE0C7856341201074447780B134365871E6D 0F44AE0C7856341201074447780B134258E21E6D",
    run: damage,
}];

fn damage(mut a: Args) -> Result<Reply, Fault> {
    let format = a.choice("FORMAT", &FORMATS)?;
    let sent = a.bytes("SENT")?;
    let place = a.place();
    let came = a.last_bytes("CAME")?;
    a.end()?;
    let read = |bytes: &[u8]| reading(format, bytes, &mut Lent::unasked(MOST_CONTENT));
    let Ok(frame) = format.read(&sent, &mut [0; MOST_CONTENT]) else {
        return Ok(read(&sent));
    };
    let size = frame.size as usize;
    if came.len() < size {
        let why = format!("CAME has {} and needs at least the {size} of SENT's frame", counted(came.len(), "byte"));
        return Err(Fault::of_word(place, why));
    }
    let told = Reply::accepted().with(|f| match Inverted::of(&sent[..size], &came[..size]) {
        Some(inverted) => inverted.tell(f, sent[0] != came[0], is_promised(format, &sent[..size], &came[..size])),
        None => f.number("inverted", 0),
    });
    Ok(told.below(Below::Reply("reading", read(&came))))
}

/// The bits of some bytes that came inverted, one or more.
#[derive(Debug, PartialEq, Eq)]
struct Inverted {
    bits: usize,
    first: usize,
    /// From the first to the last, both included.
    within: usize,
    bytes: usize,
}

impl Inverted {
    /// Both have as many bytes; of equal ones there is nothing to tell.
    fn of(sent: &[u8], came: &[u8]) -> Option<Inverted> {
        let places: Vec<usize> = (0..8 * sent.len()).filter(|&at| bit(sent, at) != bit(came, at)).collect();
        let (&first, &last) = (places.first()?, places.last()?);
        let bytes = sent.iter().zip(came).filter(|(s, c)| s != c).count();
        Some(Inverted { bits: places.len(), first, within: last - first + 1, bytes })
    }

    /// Whether a block cannot have these and be right: 16 consecutive bits, up to five bits within 151, or an odd number.
    /// Two bits that are 151 places apart leave a check as it is.
    fn makes_a_block_wrong(&self) -> bool {
        self.within <= 16 || (self.bits <= 5 && self.within <= 151) || self.bits % 2 == 1
    }

    fn tell(&self, fields: Fields, length_changed: bool, promised: bool) -> Fields {
        fields
            .number("inverted", self.bits as u64)
            .number("first", self.first as u64)
            .number("within", self.within as u64)
            .number("differing", self.bytes as u64)
            .is("length-byte-changed", length_changed)
            .is("promised", promised)
    }
}

/// The promise of docs/DAMAGE.md for a frame and what came in its place. With the length byte as it was sent the blocks
/// are the same, and one that is surely wrong is enough. With another one a frame of format B may end elsewhere, on bytes
/// that happen to be its check: nothing is promised then. In format A the first block's check stays where it is.
fn is_promised(format: Format, sent: &[u8], came: &[u8]) -> bool {
    if sent[0] == came[0] {
        return blocks(format, sent.len())
            .any(|block| Inverted::of(&sent[block.clone()], &came[block]).is_some_and(|i| i.makes_a_block_wrong()));
    }
    let few_or_near = |i: Inverted| i.within <= 16 || i.bits <= 5;
    matches!(format, Format::A) && Inverted::of(sent, came).is_some_and(few_or_near)
}

/// The blocks of a frame of so many bytes, checks included (12.3, 12.4).
fn blocks(format: Format, size: usize) -> impl Iterator<Item = Range<usize>> {
    let (first, later) = match format {
        Format::A => (12, 18),
        Format::B => (128, 128),
    };
    let starts = once(0).chain((first..size).step_by(later));
    starts.map(move |start| start..size.min(if start == 0 { first } else { start + later }))
}

/// A bit of these bytes, the highest of a byte first.
fn bit(bytes: &[u8], at: usize) -> bool {
    bytes[at / 8] << (at % 8) & 0x80 != 0
}

#[cfg(test)]
mod tests {
    use super::*;

    #[test]
    fn bits_are_counted() {
        let counted = |sent: &[u8], came: &[u8]| Inverted::of(sent, came).map(|i| (i.bits, i.first, i.within, i.bytes));
        assert_eq!(counted(&[0x0F, 0x44], &[0x0F, 0x44]), None);
        assert_eq!(counted(&[0, 0, 0], &[0x80, 0, 0]), Some((1, 0, 1, 1)));
        assert_eq!(counted(&[0, 0, 0], &[0, 0, 1]), Some((1, 23, 1, 1)));
        assert_eq!(counted(&[0x0F, 0, 0], &[0x0E, 0x80, 0]), Some((2, 7, 2, 2)));
        assert_eq!(counted(&[1, 0xFF, 0xFF], &[1, 0x7F, 0xFE]), Some((2, 8, 16, 2)));
        assert_eq!(counted(&[0, 0xFF, 0], &[0xFF, 0xFF, 0xFF]), Some((16, 0, 24, 2)));
    }

    #[test]
    fn blocks_have_their_places() {
        let of = |format, size| blocks(format, size).collect::<Vec<_>>();
        assert_eq!(of(Format::A, 15), [0..12, 12..15]);
        assert_eq!(of(Format::A, 30), [0..12, 12..30]);
        assert_eq!(of(Format::A, 33), [0..12, 12..30, 30..33]);
        assert_eq!(of(Format::B, 13), [0..13]);
        assert_eq!(of(Format::B, 128), [0..128]);
        assert_eq!(of(Format::B, 131), [0..128, 128..131]);
    }

    /// The frame 33 bytes of format A or 140 of format B, with the bits at these places inverted.
    fn promised(format: Format, places: &[usize]) -> bool {
        let size = if format == Format::A { 33 } else { 140 };
        let (sent, mut came) = (vec![0; size], vec![0; size]);
        for at in places {
            came[at / 8] ^= 0x80 >> (at % 8);
        }
        is_promised(format, &sent, &came)
    }

    /// The rule on both sides of each of its edges.
    #[test]
    fn the_rule_has_its_edges() {
        let rows: [(&[usize], [bool; 2]); 13] = [
            (&[10, 12, 14, 16, 18, 25], [true, true]),           // within 16
            (&[10, 12, 14, 16, 18, 26], [false, false]),         // within 17
            (&[90, 91, 92, 93, 98, 105], [true, true]),          // within 16, over a border of format A
            (&[8, 158], [true, true]),                           // within 151
            (&[8, 159], [true, false]),                          // within 152: two blocks of format A
            (&[8, 20, 40, 60, 80], [true, true]),                // five
            (&[8, 20, 40, 60, 80, 90], [false, false]),          // six
            (&[8, 20, 40, 60, 80, 90, 94], [true, true]),        // seven
            (&[8, 20, 40, 60, 80, 90, 200], [true, true]),       // seven, one of them in another block of format A
            (&[8, 20, 40, 60, 80, 90, 100, 120], [true, false]), // six and two
            (&[7], [true, false]),                               // the length byte
            (&[7, 100, 130, 160, 200], [true, false]),           // five, the length byte among them
            (&[7, 20, 40, 60, 80, 90, 94], [false, false]),      // seven, the length byte among them
        ];
        for (places, due) in rows {
            assert_eq!([Format::A, Format::B].map(|format| promised(format, places)), due, "{places:?}");
        }
    }

    /// Each bit and each two bits of a frame inverted: what the library accepts is never promised to be refused. In
    /// format B there is such damage, in format A none.
    #[test]
    fn what_is_promised_is_refused() {
        let content = [0x44, 0xAE, 0x0C, 0x78, 0x56, 0x34, 0x12, 0x01, 0x07, 0x78, 0, 0, 0, 0, 0, 0, 0, 0, 0, 0, 0];
        for (format, some_accepted) in [(Format::A, false), (Format::B, true)] {
            let mut sent = [0; 40];
            let size = format.write(&content, &mut sent).expect("it has room") as usize;
            let mut accepted = 0;
            for (one, other) in (0..8 * size).flat_map(|one| (one..8 * size).map(move |other| (one, other))) {
                let mut came = sent;
                came[one / 8] ^= 0x80 >> (one % 8);
                if other != one {
                    came[other / 8] ^= 0x80 >> (other % 8);
                }
                if format.read(&came, &mut [0; MOST_CONTENT]).is_ok() {
                    assert!(!is_promised(format, &sent[..size], &came[..size]), "{one} {other}");
                    accepted += 1;
                }
            }
            assert_eq!(accepted > 0, some_accepted);
        }
    }
}
