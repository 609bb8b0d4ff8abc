//! The block check and its update.
use super::{out_of_range, Command};
use crate::args::Args;
use crate::fault::Fault;
use crate::reply::Reply;

pub const COMMANDS: &[Command] = &[
    Command {
        name: "check",
        usage: "BYTES",
        does: "the block check of any bytes",
        more: "As it is sent, high byte first.",
        example: "check 313233343536373839",
        run: check,
    },
    Command {
        name: "update",
        usage: "CHECK OLD NEW DISTANCE",
        does: "a block check after one byte changed",
        more: "From OLD to NEW, DISTANCE bytes before the end of the checked bytes.",
        example: "update 1E6D 43 44 2",
        run: update,
    },
];

/// Bytes between a changed byte and the end of its span, at most.
const LONGEST_DISTANCE: u64 = 125;

fn check(mut a: Args) -> Result<Reply, Fault> {
    let bytes = a.last_bytes("BYTES")?;
    a.end()?;
    Ok(Reply::accepted().with(|f| f.bytes("check", &kusikhut::check(&bytes).to_be_bytes())))
}

fn update(mut a: Args) -> Result<Reply, Fault> {
    let old_check = u16::from_be_bytes(a.fixed::<2>("CHECK")?);
    let (old, new) = (a.byte("OLD")?, a.byte("NEW")?);
    let distance = a.number("DISTANCE")?;
    a.end()?;
    let answer = kusikhut::update(old_check, old, new, distance);
    let reply = Reply::of(answer, |f, check| f.bytes("check", &check.to_be_bytes()));
    Ok(out_of_range(reply, &[("distance", distance as u64, LONGEST_DISTANCE)]))
}
