//! What a name says, M of the maker and A of its device: the one place where it is told.
use super::Command;
use crate::args::Args;
use crate::fault::Fault;
use crate::notation::{self, shortened};
use crate::reply::{Below, Fields, Reply, Value};
use kusikhut::Reach;

pub const COMMANDS: &[Command] = &[Command {
    name: "letters",
    usage: "received=BYTES | number=M",
    does: "the letters of a maker's number M, and whether its address is hard or soft",
    more: "M is two bytes as they are received, low byte first, or a number; which of the two is said and \
               never guessed. The top bit of M says how far the address behind it is unique: address=hard is unique \
               worldwide, address=soft at least within radio range, so that a device elsewhere may have it, too. The \
               15 bits below it are three numbers of five bits, part-1= to part-3=. If each of them is 1 to 26, they \
               stand for the letters A to Z, otherwise letters=none.",
    example: "letters received=4384",
    run: letters,
}];

fn letters(mut a: Args) -> Result<Reply, Fault> {
    let (received, number) = (a.option_fixed::<2>("received")?, a.option("number"));
    let bytes = match (received, number) {
        (Some(bytes), None) => bytes,
        (None, Some((at, text))) => number_of(at, text)?,
        _ => return Err(said_twice_or_not(a)),
    };
    a.end()?;
    let m = u16::from_le_bytes(bytes);
    let reply = Reply::accepted().with(|f| maker(f, bytes).bytes("received", &bytes).number("number", m.into()));
    Ok(reply.with(|f| parts(f, m)))
}

/// The numbers that letters stand for, so that one sees which of them is no letter.
fn parts(fields: Fields, m: u16) -> Fields {
    let five_bits = |low: u32| u64::from(m >> low & 31);
    fields.number("part-1", five_bits(10)).number("part-2", five_bits(5)).number("part-3", five_bits(0))
}

fn number_of(at: usize, text: &str) -> Result<[u8; 2], Fault> {
    let number =
        notation::number_to(text, u16::MAX.into()).map_err(|why| Fault::of_word(at, format!("number {why}")))?;
    Ok((number as u16).to_le_bytes())
}

/// The order of the two bytes is never guessed: the low one comes first on the air, and a number is written high first.
fn said_twice_or_not(mut a: Args) -> Fault {
    match a.word("M") {
        Ok(word) if !word.text.is_empty() && word.text.bytes().all(|b| b.is_ascii_hexdigit()) => {
            let why = format!("say which it is: received={0} as the bytes come, or number=0x{0}", shortened(word.text));
            Fault::of_word(word.at, why)
        }
        Ok(word) => Fault::of_word(word.at, format!("{} is neither received=BYTES nor number=M", shortened(word.text))),
        Err(_) => Fault::of_word(2, "one of received= and number= is needed, and not both"),
    }
}

/// What M says, by its two bytes as they are received: its letters, if it has some, and how far the address behind it
/// is unique (12.5.5), as words.
pub fn said_by(received: [u8; 2]) -> (Option<String>, &'static str) {
    let maker = kusikhut::maker(u16::from_le_bytes(received));
    let reach = match maker.reach {
        Reach::Hard => "hard",
        Reach::Soft => "soft",
    };
    (maker.letters.map(|letters| letters.map(char::from).iter().collect()), reach)
}

/// The same as fields of an answer.
pub fn maker(fields: Fields, received: [u8; 2]) -> Fields {
    let (letters, reach) = said_by(received);
    fields.value("letters", letters.map_or(Value::None, Value::Word)).word("address", reach)
}

/// A as people print it. Used with EN 13757-3 it is the identification number, four bytes with the lowest first, then
/// version and device type (12.5.6): Annex C prints 78 56 34 12 01 07 as 12345678, 01, 07. This is a view: nothing is
/// judged, and digits A to F are shown as they stand.
pub fn printed(fields: Fields, a: [u8; 6]) -> Fields {
    let [lowest, low, high, highest, version, device] = a;
    fields.bytes("id", &[highest, high, low, lowest]).bytes("version", &[version]).bytes("type", &[device])
}

/// A whole name, M and A.
pub fn name(fields: Fields, name: [u8; 8]) -> Fields {
    let [low, high, a @ ..] = name;
    printed(maker(fields, [low, high]), a)
}

/// The answer to a content, with its sender below if it was accepted: M and A as received, which `filter` and `store`
/// take, then what they say. A refused frame hands no content over, so no sender is told. An accepted content begins with
/// C, M and A.
pub fn with_sender(reply: Reply, content: &[u8]) -> Reply {
    if reply.number != 0 {
        return reply;
    }
    let sender = *content[1..].first_chunk().expect("an accepted content has a name");
    reply.below(Below::Part("from", name(Fields::default().bytes("sender", &sender), sender)))
}

#[cfg(test)]
mod tests {
    use super::*;
    use crate::text::{self, Lead};

    fn told(reply: &Reply) -> String {
        let mut told = Vec::new();
        text::reply(reply, Lead(None), &mut told).expect("memory takes all");
        String::from_utf8(told).expect("it is text")
    }

    /// Hard and soft, with letters and without, on both sides of the top bit (12.5.5).
    #[test]
    fn makers_are_told() {
        let rows = [
            (0x0443, "letters=ABC address=hard"),
            (0x8443, "letters=ABC address=soft"),
            (0x0CAE, "letters=CEN address=hard"),
            (0x8CAE, "letters=CEN address=soft"),
            (0x6B5A, "letters=ZZZ address=hard"),
            (0xEB5A, "letters=ZZZ address=soft"),
            (0x0000, "letters=none address=hard"),
            (0x7FFF, "letters=none address=hard"),
            (0x8000, "letters=none address=soft"),
            (0xFFFF, "letters=none address=soft"),
        ];
        for (m, due) in rows {
            let reply = Reply::accepted().with(|f| maker(f, u16::to_le_bytes(m)));
            assert_eq!(told(&reply), format!("0 accepted {due}\n"), "{m:04X}");
        }
    }

    /// The three numbers are those of the letters, of every M: each is 1 to 26, or there are no letters.
    #[test]
    fn parts_are_the_letters() {
        for m in 0..=u16::MAX {
            let numbers = parts(Fields::default(), m).0.into_iter().map(|(_, value)| match value {
                Value::Number(number) => number,
                _ => panic!("a part is a number"),
            });
            let letters: Option<Vec<u8>> = numbers.map(|n| (1..=26).contains(&n).then_some(64 + n as u8)).collect();
            assert_eq!(kusikhut::maker(m).letters.map(Vec::from), letters, "{m:04X}");
        }
    }

    /// The identification number is turned round, and nothing in it is judged.
    #[test]
    fn names_are_told() {
        let rows = [
            ([0xAE, 0x0C, 0x78, 0x56, 0x34, 0x12, 0x01, 0x07], "CEN address=hard id=12345678 version=01 type=07"),
            ([0xAE, 0x8C, 0x78, 0x56, 0x34, 0x12, 0x01, 0x07], "CEN address=soft id=12345678 version=01 type=07"),
            ([0x00, 0x80, 0xF0, 0xDE, 0xBC, 0x9A, 0xFF, 0x00], "none address=soft id=9ABCDEF0 version=FF type=00"),
        ];
        for (bytes, due) in rows {
            let reply = Reply::accepted().with(|f| name(f, bytes));
            assert_eq!(told(&reply), format!("0 accepted letters={due}\n"));
        }
    }

    #[test]
    fn only_an_accepted_content_has_a_sender() {
        let content = [0x44, 0xAE, 0x8C, 0x78, 0x56, 0x34, 0x12, 0x01, 0x07];
        let below = "  sender=AE8C785634120107 letters=CEN address=soft id=12345678 version=01 type=07\n";
        assert_eq!(told(&with_sender(Reply::accepted(), &content)), format!("0 accepted\n{below}"));
        let refused = |content: &[u8]| told(&with_sender(Reply { number: 3, ..Reply::accepted() }, content));
        assert_eq!([refused(&content), refused(&[])], ["3 accepted\n"; 2]);
    }
}
