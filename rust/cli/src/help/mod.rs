//! What the program says of itself: `help`, the man page and the completion for bash, all from the commands' own texts.
mod answers;
mod bash;
mod man;

use crate::commands::{self, store, Entry};
use crate::fault::Fault;
use crate::flags::FLAGS;
use crate::notation::shortened;
use crate::reply::Reply;
use crate::text::{self, Lead};
use crate::words::{self, Word};
pub use bash::bash_completion;
pub use man::man_page;

const WIDTH: usize = 100;

pub fn version() -> String {
    format!("kusikhut {}\n", env!("CARGO_PKG_VERSION"))
}

/// The paragraphs that hold for all commands.
pub const RULES: [&str; 5] = [
    "Bytes are hex digits, two for each, in the order in which they are sent, the first chip in the highest bit. Spaces, \
     colons and underscores may stand between bytes, and 0x before them. Put bytes with spaces into quotation marks, but \
     where they come last, in groups of the same 2 to 8 digits. - is no bytes, and 44+3*00 is 44 00 00 00.",
    "Numbers (places, sizes, counts, L) are decimal, or hex behind 0x.",
    "A line may have 16384 bytes, an argument stand for 65536, and room= be 131072: more is an error and no answer.",
    "An answer is its number, its name, and values as name=value; lines set in below it belong to it. A result's bytes stand \
     whole in a field of their own (content=, frame=, chips= ..). room= and fill= say how many bytes are lent for it and \
     what they hold before the call; with room= the answer says how many are left=, and with show=lent it shows them all. \
     error begins the answer to a line that was not understood. What stands behind # is a comment; a line of nothing else \
     is passed on.",
    "The exit status is 0 if the command was accepted, 1 if it was refused, 2 if there is no answer: it was not understood, \
     or a file cannot be used. For many lines it is 0 unless they cannot be read; see --strict.",
];

/// Help on nothing, on a command, on all of them, on what holds for all, or on an answer's number.
pub fn on(topic: &[Word]) -> Result<String, Fault> {
    let Some(first) = topic.first() else {
        return Ok(overview());
    };
    match first.text {
        "help" => return Ok(overview()),
        "all" => return Ok(all()),
        "rules" => return Ok(rules()),
        _ => {}
    }
    if let Some(answer) = answers::asked_for(first.text) {
        return Ok(answers::on(answer));
    }
    let chosen: Vec<String> = entries().filter(|e| is_named(e, first.text)).map(|e| entry(&e, true)).collect();
    if chosen.is_empty() {
        let why = format!("there is no help on {}; help lists the commands", shortened(first.text));
        return Err(Fault::of_word(first.at, why));
    }
    let about = if first.text == "store" { paragraph(store::ABOUT, 0) + "\n\n" } else { String::new() };
    Ok(about + &chosen.join("\n"))
}

fn is_named(entry: &Entry, name: &str) -> bool {
    entry.name.split(' ').next() == Some(name)
}

pub fn entries() -> impl Iterator<Item = Entry> {
    commands::entries().chain(store::entries())
}

/// One screen.
fn overview() -> String {
    let mut text = format!(
        "kusikhut: wireless M-Bus frames (EN 13757-4:2019), read and written by a proved library\n\n\
         {:2}kusikhut [FLAG ..] COMMAND ARGUMENT ..   one command\n\
         {:2}kusikhut [FLAG ..] [FILE | -]            a command a line, from a file or standard input\n\nCommands:\n",
        "", ""
    );
    for c in commands::commands() {
        text += &listed(c.name, c.does);
    }
    text += &listed("store FILE ..", "a collector's settings in a file: help store");
    text += &listed("help ..", "COMMAND, all, rules (how bytes are written), or an answer (3, wrong-check)");
    text += "\nFlags, anywhere:\n";
    for (flag, does) in FLAGS {
        text += &listed(flag, does);
    }
    text + "\nExit status: 0 accepted, 1 refused, 2 no answer (not understood, or a file that cannot be used).\n"
}

fn rules() -> String {
    RULES.map(|rule| paragraph(rule, 0) + "\n").join("\n")
}

fn all() -> String {
    let mut text = rules() + "\n";
    text.extend(commands::entries().map(|e| entry(&e, false) + "\n"));
    text += &format!("{}\n\n", paragraph(store::ABOUT, 0));
    text + &store::entries().map(|e| entry(&e, false)).collect::<Vec<_>>().join("\n")
}

/// A name, and behind it what it does.
fn listed(name: &str, does: &str) -> String {
    format!("  {name:18} {does}\n")
}

/// Usage, what it does, an example; where asked for, with the example's own answer unless that is a drawing.
fn entry(e: &Entry, answered: bool) -> String {
    let more = if e.more.is_empty() { String::new() } else { paragraph(e.more, 4) + "\n" };
    let mut text = format!("{}\n{}\n{more}{:4}$ kusikhut {}\n", e.usage, paragraph(e.does, 4), "", e.example);
    if let (true, Some(reply)) = (answered, answer_to(&e.example).filter(|reply| reply.drawing.is_none())) {
        let mut told = Vec::new();
        // Writing to memory cannot fail.
        let _ = text::reply(&reply, Lead(None), &mut told);
        text += &String::from_utf8_lossy(&told).lines().map(|line| format!("    {line}\n")).collect::<String>();
    }
    text
}

/// What the library answers to an example; those on a store are not run.
fn answer_to(example: &str) -> Option<Reply> {
    match words::of_line(example.as_bytes()) {
        words::Line::Words(words) => commands::run(&words).ok(),
        _ => None,
    }
}

/// The words of a text in lines of at most WIDTH characters, each set in by so many.
fn paragraph(text: &str, set_in: usize) -> String {
    let mut lines = vec![String::new()];
    for word in text.split_whitespace() {
        let last = lines.last().map_or(0, |line| line.chars().count());
        if last > 0 && set_in + last + 1 + word.chars().count() > WIDTH {
            lines.push(String::new());
        }
        if let Some(line) = lines.last_mut() {
            line.push_str(if line.is_empty() { "" } else { " " });
            line.push_str(word);
        }
    }
    lines.iter().map(|line| format!("{:set_in$}{line}", "")).collect::<Vec<_>>().join("\n")
}

#[cfg(test)]
mod tests {
    use super::*;

    /// The limits that the rules name are those of the program.
    #[test]
    fn limits_are_the_programs() {
        let limits = [crate::lines::LONGEST, crate::notation::MOST_BYTES as usize, crate::args::MOST_LENT];
        for limit in limits {
            assert!(rules().split(|c: char| !c.is_ascii_digit()).any(|word| word == limit.to_string()), "{limit}");
        }
    }

    #[test]
    fn every_command_has_help_of_its_own() {
        for e in entries() {
            let name = e.name.split(' ').next().expect("it has a name").to_string();
            let text = on(&words::of_arguments(&[name])).expect("there is help on it");
            assert!(text.contains(&e.usage), "{}", e.name);
        }
        assert!(on(&words::of_arguments(&["3".into()])).expect("3 is an answer").starts_with("3 wrong-check block=.."));
        assert!(on(&words::of_arguments(&["15".into()])).is_err());
        assert!(overview().lines().all(|line| line.len() <= 100) && overview().lines().count() <= 45, "one screen");
    }
}
