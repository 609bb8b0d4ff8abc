//! The line codes alone.
use super::{out_of_range, with_chips, Command};
use crate::args::Args;
use crate::fault::Fault;
use crate::numbers;
use crate::reply::{Missing, Reply};
use kusikhut::Code;

pub const COMMANDS: &[Command] = &[
    Command {
        name: "decode",
        usage: "CODE CHIPS START N [room=N] [fill=00] [show=lent]",
        does: "decode chips of a line code",
        more: "N bytes from chip START on; CODE is nrz, three-of-six or manchester.",
        example: "decode three-of-six 71C0 0 1",
        run: decode,
    },
    Command {
        name: "encode",
        usage: "CODE BYTES [room=NUMBER] [fill=00] [show=lent]",
        does: "encode bytes as chips of a line code",
        more: "CODE is nrz, three-of-six or manchester.",
        example: "encode manchester 44",
        run: encode,
    },
    Command {
        name: "word",
        usage: "CODE CHIPS PLACE",
        does: "what a code word stands for",
        more: "The one at chip PLACE: a byte (nrz), a half-byte (three-of-six) or a bit (manchester); next= \
               says where the next begins.",
        example: "word three-of-six 71C0 6",
        run: word,
    },
];

pub const CODES: [(&str, Code); 3] =
    [("nrz", Code::Nrz), ("three-of-six", Code::ThreeOfSix), ("manchester", Code::Manchester)];

/// How many chips a byte has in this code.
pub fn chips_a_byte(code: Code) -> u64 {
    let bits_a_word = match code {
        Code::Nrz => 8,
        Code::ThreeOfSix => 4,
        Code::Manchester => 1,
    };
    code.width() as u64 * 8 / bits_a_word
}

fn decode(mut a: Args) -> Result<Reply, Fault> {
    let code = a.choice("CODE", &CODES)?;
    let chips = a.bytes("CHIPS")?;
    let (start, n) = (a.number("START")?, a.number("N")?);
    let mut lent = a.lent(n)?;
    a.end()?;
    let answer = code.decode(&chips, start, n, &mut lent.bytes);
    let reply = Reply::of(answer, |f, ()| lent.result(f.number("size", n as u64), "bytes", n as u64));
    let reply =
        missing_chips(with_chips(reply, &chips, start), &chips, start, (n as u64).checked_mul(chips_a_byte(code)));
    Ok(reply
        .if_number(numbers::NO_ROOM, |f| f.number("room", lent.room()).number("needs", n as u64))
        .with(|f| lent.all(f)))
}

/// Of 1, too-short, how many of so many chips from a start on are missing. A number that no counter holds is not told.
fn missing_chips(reply: Reply, chips: &[u8], start: usize, asked: Option<u64>) -> Reply {
    match asked.and_then(|asked| asked.checked_add(start as u64)) {
        Some(end) => {
            let missing = || Missing::Exactly(end - 8 * chips.len() as u64);
            reply.if_number(numbers::TOO_SHORT, |f| f.missing_chips(missing()))
        }
        None => reply,
    }
}

fn encode(mut a: Args) -> Result<Reply, Fault> {
    let code = a.choice("CODE", &CODES)?;
    let bytes = a.last_bytes("BYTES")?;
    let enough = (bytes.len() as u64 * chips_a_byte(code)).div_ceil(8);
    let mut lent = a.lent(enough as usize)?;
    a.end()?;
    let reply =
        Reply::of(code.encode(&bytes, &mut lent.bytes), |f, size| lent.result(f.number("size", size), "chips", size));
    Ok(reply
        .if_number(numbers::NO_ROOM, |f| f.number("room", lent.room()).number("needs", enough))
        .with(|f| lent.all(f)))
}

fn word(mut a: Args) -> Result<Reply, Fault> {
    let code = a.choice("CODE", &CODES)?;
    let chips = a.bytes("CHIPS")?;
    let place = a.number("PLACE")?;
    a.end()?;
    let next = (place as u64).saturating_add(code.width() as u64);
    let reply = Reply::of(code.word(&chips, place), |f, value| f.number("value", value).number("next", next));
    let reply = out_of_range(reply, &[super::chip_bytes(&chips), ("place", place as u64, 8 * chips.len() as u64)]);
    Ok(missing_chips(reply, &chips, place, Some(code.width() as u64)))
}
