//! The search for the sync word.
use super::{with_chips, Command};
use crate::args::Args;
use crate::fault::Fault;
use crate::reply::Reply;

pub const COMMANDS: &[Command] = &[Command {
    name: "search",
    usage: "CHIPS [start=0] [allowance=NUMBER]",
    does: "look for the sync word 543D",
    more: "From chip start= on, at all places or at allowance= of them; tried= says at how many.",
    example: "search 55555555543D start=3 allowance=100",
    run: search,
}];

fn search(mut a: Args) -> Result<Reply, Fault> {
    let chips = a.last_bytes("CHIPS")?;
    let (start, allowance) = (a.option_number("start", 0)?, a.option_number("allowance", usize::MAX)?);
    a.end()?;
    let answer = kusikhut::search(&chips, start, allowance);
    let reply = Reply::of(answer, |f, found| f.number("place", found.place).number("tried", found.tried));
    Ok(with_chips(reply, &chips, start))
}
