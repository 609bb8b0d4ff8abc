//! The meter filter.
use super::{out_of_range, Command};
use crate::args::Args;
use crate::fault::Fault;
use crate::notation::counted_as;
use crate::numbers;
use crate::reply::Reply;

pub const COMMANDS: &[Command] = &[Command {
    name: "filter",
    usage: "CONTENT [ENTRY ..] [count=ENTRIES]",
    does: "whether a content is of a wanted meter",
    more: "ENTRY is M and A as received, 8 bytes, as sender= shows them below an accepted frame; there are at most \
               sixteen. count= takes only the first of them. All 8 bytes count: two names that differ in the top bit \
               of M alone, one hard and one soft, are two meters.",
    example: "filter 44AE0C785634120107780B13436587 AE0C785634120107",
    run: filter,
}];

const MOST_ENTRIES: usize = 16;

/// The shortest content that has the meter's name in it.
const SHORTEST: u64 = 9;

fn filter(mut a: Args) -> Result<Reply, Fault> {
    let content = a.bytes("CONTENT")?;
    let mut given = Vec::new();
    while a.more() {
        given.push(a.fixed::<8>("ENTRY")?);
    }
    let (argument, count) = match a.option("count") {
        None => ("entries", given.len()),
        Some((at, text)) => ("count", counted_entries(at, text, given.len())?),
    };
    a.end()?;
    let mut entries = [[0; 8]; MOST_ENTRIES];
    entries.iter_mut().zip(&given).for_each(|(entry, given)| *entry = *given);
    let answer = kusikhut::wanted(&entries, count, &content);
    let reply = Reply::of(answer, |f, yes| f.is("wanted", yes));
    let reply = out_of_range(reply, &[(argument, count as u64, MOST_ENTRIES as u64)]);
    let length = content.len() as u64;
    Ok(reply.if_number(numbers::CONTENT_LENGTH_NOT_ALLOWED, |f| f.number("given", length).number("least", SHORTEST)))
}

/// The count may leave typed entries out, but none is made up: an entry of zeros is a meter's name like any other.
fn counted_entries(at: usize, text: &str, given: usize) -> Result<usize, Fault> {
    let count = crate::notation::number(text).map_err(|why| Fault::of_word(at, format!("count {why}")))?;
    if count > given as u64 {
        let there = counted_as(given, "entry", "entries");
        return Err(Fault::of_word(at, format!("count is {count}, and the line has {there}")));
    }
    Ok(count as usize)
}
