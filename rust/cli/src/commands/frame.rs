//! Frames as bytes, in formats A and B.
use super::address::with_sender;
use super::Command;
use crate::args::{Args, Lent};
use crate::fault::Fault;
use crate::numbers;
use crate::reply::{Missing, Reply};
use kusikhut::Format;

pub const COMMANDS: &[Command] = &[
    Command {
        name: "read",
        usage: "FORMAT BYTES [room=255] [fill=00] [show=lent]",
        does: "read a frame of format A or B",
        more: concat!("BYTES begin with the length byte; bytes behind the frame mean nothing. ", of_sender!()),
        example: "read A 0F44AE0C7856341201074447780B134365871E6D",
        run: read,
    },
    Command {
        name: "write",
        usage: "FORMAT CONTENT [room=290] [fill=00] [show=lent]",
        does: "write a content as a frame of format A or B",
        more: "The content is all that stands between length byte and checks: C, M, A, CI and what follows.",
        example: "write A 44AE0C785634120107780B13436587",
        run: write,
    },
    Command {
        name: "change",
        usage: "FORMAT FRAME PLACE BYTE [show=lent]",
        does: "change one content byte in a frame, and its check",
        more: "PLACE counts the content's bytes from 0. Only this byte and the two check bytes over it change.",
        example: "change A 0F44AE0C7856341201074447780B134365871E6D 12 44",
        run: change,
    },
    Command {
        name: "size",
        usage: "FORMAT L",
        does: "the size of a frame with the length byte L",
        more: "L is a number: 15 and 0x0F are the same.",
        example: "size A 15",
        run: size,
    },
];

/// The longest content, and the longest frame.
pub const MOST_CONTENT: usize = 255;
pub const MOST_FRAME: usize = 290;

pub const FORMATS: [(&str, Format); 2] = [("A", Format::A), ("B", Format::B)];

fn read(mut a: Args) -> Result<Reply, Fault> {
    let format = a.choice("FORMAT", &FORMATS)?;
    let bytes = a.last_bytes("BYTES")?;
    let mut lent = a.lent(MOST_CONTENT)?;
    a.end()?;
    Ok(reading(format, &bytes, &mut lent))
}

/// What reading these bytes answers, with the frame's sender below.
pub fn reading(format: Format, bytes: &[u8], lent: &mut Lent) -> Reply {
    let answer = format.read(bytes, &mut lent.bytes);
    let reply = Reply::of(answer, |f, frame| {
        lent.result(f.number("size", frame.size).number("n", frame.n), "content", frame.n)
    });
    let reply = short_frame(reply, format, bytes);
    let needs = || format.read(bytes, &mut [0; MOST_CONTENT]).expect("this is room enough").n;
    let reply = reply.if_number(numbers::NO_ROOM, |f| f.number("room", lent.room()).number("needs", needs()));
    with_sender(reply, &lent.bytes).with(|f| lent.all(f))
}

/// Of a frame's bytes that end too early how many are missing, by the length byte; of a length byte that is not allowed
/// which it is.
pub fn short_frame(reply: Reply, format: Format, bytes: &[u8]) -> Reply {
    let Some(&l) = bytes.first() else {
        return reply.if_number(numbers::TOO_SHORT, |f| f.missing_bytes(Missing::AtLeast(1)));
    };
    let missing = || format.frame_size(l).map_or(0, |size| size.saturating_sub(bytes.len() as u64));
    reply
        .if_number(numbers::TOO_SHORT, |f| f.missing_bytes(Missing::Exactly(missing())))
        .if_number(numbers::LENGTH_NOT_ALLOWED, |f| f.number("l", l.into()))
}

fn write(mut a: Args) -> Result<Reply, Fault> {
    let format = a.choice("FORMAT", &FORMATS)?;
    let content = a.last_bytes("CONTENT")?;
    let mut lent = a.lent(MOST_FRAME)?;
    a.end()?;
    let answer = format.write(&content, &mut lent.bytes);
    let reply = Reply::of(answer, |f, size| lent.result(f.number("size", size), "frame", size));
    let needs = || format.write(&content, &mut [0; MOST_FRAME]).expect("this is room enough");
    let reply = reply.if_number(numbers::NO_ROOM, |f| f.number("room", lent.room()).number("needs", needs()));
    Ok(content_length(reply, format, &content).with(|f| lent.all(f)))
}

/// Of a content whose length is not allowed how long it is, and how long it may be.
pub fn content_length(reply: Reply, format: Format, content: &[u8]) -> Reply {
    let most = match format {
        Format::A => 255,
        Format::B => 251,
    };
    reply.if_number(numbers::CONTENT_LENGTH_NOT_ALLOWED, |f| {
        f.number("given", content.len() as u64).number("least", 10).number("most", most)
    })
}

fn change(mut a: Args) -> Result<Reply, Fault> {
    let format = a.choice("FORMAT", &FORMATS)?;
    let bytes = a.bytes("FRAME")?;
    let place = a.number("PLACE")?;
    let byte = a.byte("BYTE")?;
    let mut lent = a.lent_in_place(bytes)?;
    a.end()?;
    let answer = format.change(&mut lent.bytes, place, byte);
    let reply = Reply::of(answer, |f, frame| {
        lent.result(f.number("size", frame.size).number("n", frame.n), "frame", frame.size)
    });
    let reply = short_frame(reply, format, &lent.bytes);
    let n = || format.read(&lent.bytes, &mut [0; MOST_CONTENT]).expect("the frame itself was taken").n;
    Ok(reply
        .if_number(numbers::NO_SUCH_PLACE, |f| f.number("given", place as u64).number("n", n()))
        .with(|f| lent.all(f)))
}

fn size(mut a: Args) -> Result<Reply, Fault> {
    let format = a.choice("FORMAT", &FORMATS)?;
    let l = a.number_to("L", 255)? as u8;
    a.end()?;
    let reply = Reply::of(format.frame_size(l), |f, size| f.number("size", size));
    Ok(reply.with(|f| f.number("l", l.into()).bytes("byte", &[l])))
}
