//! The commands, in a module for each crate that answers them: each parses its words, calls the library and tells the
//! answer.

/// What the help on a command that reads frames says of the line below an accepted one. A macro, since help texts are
/// constants and are put together of nothing but literals.
macro_rules! of_sender {
    () => {
        "Below an accepted frame stands who sent it: sender= is M and A as received, which filter and store take. \
         letters= are the letters of M; letters=none: M stands for no letters (help letters says why). address=hard is \
         unique worldwide, address=soft at least within radio range. id=, version= and type= are A as EN 13757-3 has \
         it, the number highest byte first; none of it is judged. In JSON all of it is the object from."
    };
}

pub mod address;
mod channels;
mod correction;
mod crc;
mod damage;
mod filter;
pub mod frame;
mod header;
pub mod line;
mod mending;
mod picture;
pub mod radio;
pub mod store;
mod sync;

use crate::args::Args;
use crate::fault::Fault;
use crate::notation::shortened;
use crate::numbers;
use crate::reply::Reply;
use crate::words::Word;

pub struct Command {
    pub name: &'static str,
    pub usage: &'static str,
    /// In a few words, for the list of commands.
    pub does: &'static str,
    /// What is to be known besides.
    pub more: &'static str,
    /// A line that is accepted.
    pub example: &'static str,
    run: fn(Args) -> Result<Reply, Fault>,
}

/// What `help` and the man page say of a command.
pub struct Entry {
    pub name: String,
    pub usage: String,
    pub does: &'static str,
    pub more: &'static str,
    pub example: String,
}

/// Every command but those on a store, in the order in which `help` shows them.
pub fn commands() -> impl Iterator<Item = &'static Command> {
    let parts = [
        radio::COMMANDS,
        sync::COMMANDS,
        frame::COMMANDS,
        damage::COMMANDS,
        picture::COMMANDS,
        correction::COMMANDS,
        mending::COMMANDS,
        crc::COMMANDS,
        line::COMMANDS,
        header::COMMANDS,
        address::COMMANDS,
        filter::COMMANDS,
        channels::COMMANDS,
    ];
    parts.into_iter().flatten()
}

pub fn entries() -> impl Iterator<Item = Entry> {
    commands().map(|c| Entry {
        name: c.name.into(),
        usage: format!("{} {}", c.name, c.usage),
        does: c.does,
        more: c.more,
        example: c.example.into(),
    })
}

/// Runs one command on its words, the first of which is its name.
pub fn run(words: &[Word]) -> Result<Reply, Fault> {
    let Some(name) = words.first() else {
        return Err(Fault::of_word(1, "a command is missing; help lists them"));
    };
    if name.text == "store" {
        let why = "store works on files and is taken from the arguments alone: kusikhut store FILE ..";
        return Err(Fault::of_word(1, why));
    }
    let command = commands().find(|c| c.name == name.text).ok_or_else(|| unknown(*name))?;
    (command.run)(Args::of(words)).map_err(|why| why.in_command(format!("{} {}", command.name, command.usage)))
}

/// Whether a word is a command's name.
pub fn is_command(name: &str) -> bool {
    commands().any(|c| c.name == name)
}

fn unknown(name: Word) -> Fault {
    Fault::of_word(
        name.at,
        format!("there is no command {}{}; help lists them", shortened(name.text), meant(name.text)),
    )
}

/// A question for whoever mistyped a command's name by a letter or two.
pub fn meant(name: &str) -> String {
    const SLIP: usize = 2;
    let names = commands().map(|c| c.name).chain(["store", "help"]);
    let nearest = names.map(|known| (slips(known, name), known)).min();
    // Two letters of a short name are not a slip.
    let slipped = nearest.filter(|&(slips, known)| slips <= SLIP && slips < known.len() / 2);
    slipped.map_or(String::new(), |(_, known)| format!(" (did you mean {known}?)"))
}

/// How many letters must be put in, left out or changed to make one word of the other.
fn slips(one: &str, other: &str) -> usize {
    let other: Vec<char> = other.chars().take(LONGEST_NAME).collect();
    let mut row: Vec<usize> = (0..=other.len()).collect();
    for (before, letter) in one.chars().enumerate() {
        let mut above_left = std::mem::replace(&mut row[0], before + 1);
        for (at, &there) in other.iter().enumerate() {
            let changed = above_left + usize::from(letter != there);
            above_left = row[at + 1];
            row[at + 1] = changed.min(above_left + 1).min(row[at] + 1);
        }
    }
    row[other.len()]
}

/// No command's name has as many letters.
const LONGEST_NAME: usize = 24;

/// The most bytes of received chips.
const MOST_CHIP_BYTES: u64 = 1_024;

/// An argument with a limit: its name, what was given, the limit.
type Limited = (&'static str, u64, u64);

/// Of 10, out-of-range, which argument is over its limit, and what the limit is.
fn out_of_range(reply: Reply, arguments: &[Limited]) -> Reply {
    match arguments.iter().find(|&&(_, given, limit)| given > limit) {
        Some(&(name, given, limit)) => reply.if_number(numbers::OUT_OF_RANGE, |f| {
            f.word("argument", name).number("given", given).number("limit", limit)
        }),
        None => reply,
    }
}

fn chip_bytes(chips: &[u8]) -> Limited {
    ("chip-bytes", chips.len() as u64, MOST_CHIP_BYTES)
}

/// The same for a call that goes through chips from a start on.
fn with_chips(reply: Reply, chips: &[u8], start: usize) -> Reply {
    out_of_range(reply, &[chip_bytes(chips), ("start", start as u64, 8 * chips.len() as u64)])
}

#[cfg(test)]
mod tests {
    use super::*;
    use crate::words::{of_line, Line};

    fn reply(line: &str) -> Reply {
        match of_line(line.as_bytes()) {
            Line::Words(words) => run(&words).unwrap_or_else(|why| panic!("{line}: {why}")),
            other => panic!("{line}: {other:?}"),
        }
    }

    #[test]
    fn slips_are_counted() {
        let counted = [("read", "read"), ("read", "raed"), ("read", "red"), ("", "abc"), ("receive", "recieve")];
        assert_eq!(counted.map(|(one, other)| slips(one, other)), [0, 2, 1, 3, 2]);
        let questions = [" (did you mean receive?)", " (did you mean check?)", ""];
        assert_eq!([meant("recieve"), meant("chek"), meant("x")], questions);
        assert!(commands().all(|c| c.name.len() < LONGEST_NAME));
    }

    /// Every example that `help` shows is accepted.
    #[test]
    fn examples_are_accepted() {
        for c in commands() {
            assert!(reply(c.example).all_accepted(), "{}", c.example);
        }
    }

    /// What a usage says is lent without `room=` is lent.
    #[test]
    fn rooms_are_as_said() {
        use {frame::MOST_CONTENT, frame::MOST_FRAME, header::LONGEST, radio::MOST_SENT};
        let rooms = [
            ("read", MOST_CONTENT),
            ("receive", MOST_CONTENT),
            ("manchester", MOST_CONTENT),
            ("mend", MOST_CONTENT),
            ("write", MOST_FRAME),
            ("send", MOST_SENT),
            ("write-header", LONGEST),
            ("check-bytes", 32),
        ];
        for (name, room) in rooms {
            let command = commands().find(|c| c.name == name).expect("there is one");
            assert!(command.usage.contains(&format!("[room={room}]")), "{name}");
        }
        let longest = |kind: &str| reply(&format!("send {kind} +255*00")).number;
        assert_eq!([longest("T-A"), longest("Manchester-A"), reply("write A +255*00").number], [0; 3]);
    }

    /// The limits that a refusal names are the library's: it accepts up to them and refuses beyond them.
    #[test]
    fn limits_are_the_librarys() {
        let at = |line: &str, number: u8| assert_eq!(reply(line).number, number, "{line}");
        at("update FFFF 00 01 125", 0);
        at("update FFFF 00 01 126", 10);
        for (before, behind, refused) in
            [("search ", "", 7), ("receive ", "", 7), ("manchester ", "", 6), ("word nrz ", " 0", 0)]
        {
            at(&format!("{before}+1024*00{behind}"), refused);
            at(&format!("{before}+1025*00{behind}"), 10);
        }
        for (before, start, refused) in
            [("search 00 start=", 8, 7), ("manchester 00 start=", 8, 1), ("word nrz 00 ", 8, 1)]
        {
            at(&format!("{before}{start}"), refused);
            at(&format!("{before}{}", start + 1), 10);
        }
        at("decode nrz +1024*00 8192 0", 0);
        at("decode nrz +1024*00 8193 0", 10);
        at("decode nrz +1025*00 0 0", 10);
        let entries = |count| format!("filter 44+8*00{}", " 0000000000000000".repeat(count));
        at(&entries(16), 0);
        at(&entries(17), 10);
        at("filter +8*00", 5);
        for (format, most) in [("A", 255), ("B", 251)] {
            at(&format!("write {format} +9*00"), 5);
            at(&format!("write {format} +10*00"), 0);
            at(&format!("write {format} +{most}*00"), 0);
            at(&format!("write {format} +{}*00", most + 1), 5);
        }
        at("check-bytes +223*00", 0);
        at("check-bytes +224*00", 23);
    }
}
