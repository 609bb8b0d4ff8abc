//! The words of a drawing: the answer, what it means for this frame, and the names of its parts.
use super::parts::Field;
use crate::anatomy::Cell;
use crate::commands::address::said_by;
use crate::notation::counted;
use crate::numbers;
use crate::reply::{Reply, Value};
use kusikhut::Kind;

/// A field of the answer that is a number.
pub fn number(reply: &Reply, name: &str) -> Option<u64> {
    reply.fields.0.iter().find_map(|(field, value)| match value {
        Value::Number(number) if *field == name => Some(*number),
        _ => None,
    })
}

/// A field of the answer that is bytes.
pub fn bytes<'a>(reply: &'a Reply, name: &str) -> Option<&'a [u8]> {
    reply.fields.0.iter().find_map(|(field, value)| match value {
        Value::Bytes(bytes) if *field == name => Some(&bytes[..]),
        _ => None,
    })
}

/// The answer without its bytes, which are drawn.
pub fn headline(reply: &Reply) -> String {
    let fields = reply.fields.0.iter().filter_map(|(name, value)| match value {
        Value::Number(number) => Some(format!(" {name}={number}")),
        Value::Word(word) => Some(format!(" {name}={word}")),
        _ => None,
    });
    format!("{} {}{}", reply.number, reply.name, fields.collect::<String>())
}

/// What the answer means for this frame, in a sentence. A search begins at a chip, which the answer does not tell.
pub fn meaning(reply: &Reply, start: usize) -> String {
    let told = |name| number(reply, name).unwrap_or(0);
    let why = match reply.number {
        0 => return "Accepted: everything that this frame must have is right.".into(),
        numbers::TOO_SHORT => format!("it ends too early by {}", missing(reply)),
        numbers::LENGTH_NOT_ALLOWED => "no frame of this format has this length byte".into(),
        numbers::WRONG_CHECK => format!("the check of block {} does not fit its bytes", told("block")),
        numbers::NO_ROOM => format!("the content has {} bytes, and {} were lent for it", told("needs"), told("room")),
        numbers::NOT_A_CODE_WORD => format!("word {} of the frame stands for nothing in its line code", told("word")),
        numbers::NO_SYNC if told("tried") == 0 => format!("from chip {start} on there are no 16 chips for a sync word"),
        numbers::NO_SYNC => format!("none of the {} places from chip {start} on has the sync word", told("tried")),
        numbers::UNKNOWN_SYNC_TAIL => "the 16 chips behind the sync word are of no known kind".into(),
        numbers::ALLOWANCE_USED_UP => {
            let places = counted(told("tried") as usize, "place");
            format!("no sync word at the {places} that may be tried from chip {start} on, and more are left")
        }
        _ => format!("{} is {} and may be at most {}", word(reply, "argument"), told("given"), told("limit")),
    };
    format!("Refused: {why}.")
}

/// How much is missing, and whether it may be more.
fn missing(reply: &Reply) -> String {
    let things = [
        ("missing-chips", "chip", ""),
        ("missing-bytes", "byte", ""),
        ("missing-chips-at-least", "chip", " or more"),
        ("missing-bytes-at-least", "byte", " or more"),
    ];
    let told = |&(name, thing, more): &(&str, &str, &str)| Some(counted(number(reply, name)? as usize, thing) + more);
    things.iter().find_map(told).unwrap_or_default()
}

fn word<'a>(reply: &'a Reply, name: &str) -> &'a str {
    let word = reply.fields.0.iter().find_map(|(field, value)| match value {
        Value::Word(word) if *field == name => Some(word.as_str()),
        _ => None,
    });
    word.unwrap_or_default()
}

pub fn kind_words(kind: Kind) -> &'static str {
    match kind {
        Kind::TWithA => "mode T: three-of-six, six chips for half a byte, format A",
        Kind::CWithA => "mode C: NRZ, one chip for a bit, format A",
        Kind::CWithB => "mode C: NRZ, one chip for a bit, format B",
        Kind::ManchesterWithA => "Manchester: two chips for a bit, format A",
    }
}

/// The colour of a field's bytes, by its name in the style.
pub fn class_of(field: Field) -> &'static str {
    match field {
        Field::L => "length",
        Field::C => "control",
        Field::M => "maker",
        Field::A => "address",
        Field::Ci => "ci",
        Field::Extended(_) => "extended",
        Field::Data => "data",
        Field::Check => "check",
        Field::NotJudged => "not-judged",
    }
}

/// The name of a field, with what its bytes mean where that is of use.
pub fn name_of(field: Field, cells: &[Cell]) -> String {
    match (field, cells) {
        (Field::L, [Cell::Byte(l)]) => format!("L: {l}"),
        (Field::L, _) => "L".into(),
        (Field::C, _) => "C".into(),
        (Field::M, &[Cell::Byte(low), Cell::Byte(high)]) => format!("M: {}", maker(low, high)),
        (Field::M, _) => "M".into(),
        (Field::A, _) => "A: address".into(),
        (Field::Ci, _) => "CI".into(),
        (Field::Extended("M2"), &[Cell::Byte(low), Cell::Byte(high)]) => format!("M2: {}", maker(low, high)),
        (Field::Extended(name), _) => name.into(),
        (Field::Data, _) => "data".into(),
        (Field::Check, _) => "check".into(),
        (Field::NotJudged, _) => "not judged".into(),
    }
}

/// The letters of M, and whether its address is hard or soft.
fn maker(low: u8, high: u8) -> String {
    let (letters, reach) = said_by([low, high]);
    format!("{}, {reach}", letters.as_deref().unwrap_or("no letters"))
}

#[cfg(test)]
mod tests {
    use super::*;

    #[test]
    fn makers_are_named() {
        let cells = |m: u16| u16::to_le_bytes(m).map(Cell::Byte);
        let named = |field, m| name_of(field, &cells(m));
        assert_eq!(named(Field::M, 0x0CAE), "M: CEN, hard");
        assert_eq!(named(Field::M, 0x8CAE), "M: CEN, soft");
        assert_eq!(named(Field::Extended("M2"), 0x0000), "M2: no letters, hard");
        assert_eq!(named(Field::Extended("M2"), 0xFFFF), "M2: no letters, soft");
        assert_eq!(name_of(Field::M, &[Cell::Byte(0xAE), Cell::Missing]), "M");
    }
}
