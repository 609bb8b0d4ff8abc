//! The mode N channel plan.
use super::Command;
use crate::args::Args;
use crate::fault::Fault;
use crate::numbers;
use crate::reply::{Fields, Reply, Value};

pub const COMMANDS: &[Command] = &[
    Command {
        name: "channel",
        usage: "INDEX CHANNEL",
        does: "the centre of a mode N channel",
        more: "With its row of Table 21, in kilohertz. If there is none, channels= says how many the index has, from 0 on.",
        example: "channel 5 0",
        run: channel,
    },
    Command {
        name: "band",
        usage: "LETTER",
        does: "every channel of band A, B, C or D",
        more: "Each with its index and its centre in hertz.",
        example: "band B",
        run: band,
    },
];

fn channel(mut a: Args) -> Result<Reply, Fault> {
    let (index, channel) = (a.number("INDEX")?, a.number("CHANNEL")?);
    a.end()?;
    let reply = Reply::of(kusikhut::centre(index, channel), |f, khz| {
        let row = kusikhut::row(index);
        let real = |f: Fields, name, number| f.value(name, Value::Real(number));
        real(real(real(real(f, "khz", khz), "first", row.centre), "spacing", row.spacing), "tolerance", row.tolerance)
    });
    let channels = || (0..).take_while(|&channel| kusikhut::centre(index, channel).is_ok()).count() as u64;
    Ok(reply.if_number(numbers::NO_SUCH_CHANNEL, |f| f.number("index", index as u64).number("channels", channels())))
}

fn band(mut a: Args) -> Result<Reply, Fault> {
    let letter = a.word("LETTER")?.text.to_ascii_uppercase();
    let letter = letter.as_bytes();
    a.end()?;
    let first = match kusikhut::band_line(letter, 0) {
        Ok(line) => line,
        Err(refusal) => return Ok(Reply::refused(refusal)),
    };
    let others = (1..).map_while(|k| kusikhut::band_line(letter, k).ok());
    let lines: Vec<_> = std::iter::once(first).chain(others).collect();
    let told = Reply::accepted().with(|f| f.number("count", lines.len() as u64));
    Ok(told.list("channels", &lines, |line| {
        Fields::default().number("index", line.index).number("channel", line.channel).number("hertz", line.hertz)
    }))
}
