//! Correction bytes for update frames.
use super::frame::{short_frame, FORMATS};
use super::Command;
use crate::args::Args;
use crate::fault::Fault;
use crate::numbers;
use crate::reply::Reply;
use kusikhut::{Format, CORRECTION_SIZE};

pub const COMMANDS: &[Command] = &[
    Command {
        name: "write-correction",
        usage: "FORMAT FRAME [room=NUMBER] [fill=00] [show=lent]",
        does: "write a frame with correction bytes behind it",
        more: "The frame, the header 2104 and 32 check bytes. Read docs/CORRECTION.md before use.",
        example: "write-correction A 0F44AE0C7856341201074447780B134365871E6D",
        run: write_correction,
    },
    Command {
        name: "check-bytes",
        usage: "BYTES [room=32] [fill=00] [show=lent]",
        does: "the 32 check bytes of Reed-Solomon (255, 223)",
        more: "Of any bytes up to 223. Read docs/CORRECTION.md before use.",
        example: "check-bytes 0F44AE0C7856341201074447780B134365871E6D",
        run: check_bytes,
    },
    Command {
        name: "correction-header",
        usage: "BYTES",
        does: "what a correction header announces",
        more: "BYTES begin with its two bytes, as they are sent.",
        example: "correction-header 2104",
        run: correction_header,
    },
];

fn write_correction(mut a: Args) -> Result<Reply, Fault> {
    let format = a.choice("FORMAT", &FORMATS)?;
    let frame = a.last_bytes("FRAME")?;
    let mut lent = a.lent(frame.len() + CORRECTION_SIZE)?;
    a.end()?;
    let answer = format.write_correction(&frame, &mut lent.bytes);
    let reply = Reply::of(answer, |f, size| lent.result(f.number("size", size), "sent", size));
    let needs = || size_of(format, &frame) + CORRECTION_SIZE as u64;
    let reply = too_long(short_frame(reply, format, &frame), format, &frame);
    let reply = reply.if_number(numbers::NO_ROOM, |f| f.number("room", lent.room()).number("needs", needs()));
    Ok(reply.with(|f| lent.all(f)))
}

/// The longest word that gets check bytes.
const LONGEST: u64 = 223;

/// Of a frame that is too long for correction bytes how long it is, by its length byte, and how long it may be.
pub fn too_long(reply: Reply, format: Format, frame: &[u8]) -> Reply {
    reply.if_number(numbers::TOO_LONG_FOR_CORRECTION, |f| {
        f.number("given", size_of(format, frame)).number("limit", LONGEST)
    })
}

/// The size of a frame by its length byte, or 0 where that is not allowed or not there.
fn size_of(format: Format, frame: &[u8]) -> u64 {
    frame.first().map_or(0, |&l| format.frame_size(l).unwrap_or(0))
}

fn check_bytes(mut a: Args) -> Result<Reply, Fault> {
    let bytes = a.last_bytes("BYTES")?;
    let mut lent = a.lent(32)?;
    a.end()?;
    let answer = kusikhut::check_bytes(&bytes, &mut lent.bytes);
    let reply = Reply::of(answer, |f, size| lent.result(f.number("size", size), "check-bytes", size));
    let given = bytes.len() as u64;
    let reply =
        reply.if_number(numbers::TOO_LONG_FOR_CORRECTION, |f| f.number("given", given).number("limit", LONGEST));
    Ok(reply.if_number(numbers::NO_ROOM, |f| f.number("room", lent.room()).number("needs", 32)).with(|f| lent.all(f)))
}

fn correction_header(mut a: Args) -> Result<Reply, Fault> {
    let bytes = a.last_bytes("BYTES")?;
    a.end()?;
    let answer = kusikhut::read_correction_header(&bytes);
    let reply = Reply::of(answer, |f, ()| f.word("announces", "reed-solomon-255-223"));
    Ok(reply.if_number(numbers::TOO_SHORT, |f| f.number("missing-bytes", 2 - bytes.len() as u64)))
}
