//! `kusikhut`: one command from its arguments, or one command a line from a file or standard input; an answer for each.
//! Commands on a store are taken from the arguments alone, so that lines from elsewhere touch no file.
//!
//! The program parses and prints; every decision is the proved library's. The program's own are words about an answer: how
//! much is missing, which limit was passed, where two words differ (`mend`), how an address is printed, the three
//! numbers in M (`letters`), the parts of a drawing.
mod anatomy;
mod args;
mod commands;
mod fault;
mod flags;
mod help;
mod json;
mod lines;
mod notation;
mod numbers;
mod picture;
mod printer;
mod reply;
mod text;
mod words;

use fault::Fault;
use flags::Request;
use lines::{Broken, Line, Lines};
use printer::{Outcome, Printer, Status};
use std::fs::File;
use std::io::{self, BufWriter, IsTerminal, Read, Write};
use std::path::Path;
use std::process::ExitCode;

/// Why the program ends before its time.
enum Stop {
    /// The answer could not be written.
    Output(io::Error),
    /// There is no input, or no more of it: what it is, and why.
    Input(String, io::Error),
}

fn main() -> ExitCode {
    let arguments = std::env::args_os().skip(1).map(|a| a.to_string_lossy().into_owned());
    let (flags, request) = match flags::of(arguments) {
        Ok(asked) => asked,
        Err(fault) => {
            say(format_args!("error {fault}"));
            return ExitCode::from(Status::NoAnswer as u8);
        }
    };
    let mut printer = Printer { out: BufWriter::with_capacity(lines::AT_ONCE, io::stdout().lock()), flags };
    let mut status = Status::Accepted;
    let done = answer(request, &mut printer).and_then(|answered| {
        status = answered;
        printer.out.flush().map_err(Stop::Output)
    });
    let status = match done {
        Ok(()) => status,
        // A reader that went away (as `head` does) is no error of ours.
        Err(Stop::Output(why)) if why.kind() == io::ErrorKind::BrokenPipe => status,
        Err(Stop::Output(why)) => failed(format!("the answer could not be written: {why}")),
        Err(Stop::Input(what, why)) => {
            let _ = printer.out.flush();
            failed(format!("{} cannot be read: {why}", notation::tame(&what)))
        }
    };
    // What is left in the buffer could not be written, and is not tried again.
    std::mem::forget(printer);
    ExitCode::from(status as u8)
}

fn failed(why: String) -> Status {
    say(format_args!("kusikhut: {why}"));
    Status::NoAnswer
}

/// A line for a person. Where it cannot be written there is nobody to be told.
fn say(line: std::fmt::Arguments) {
    let _ = writeln!(io::stderr(), "{line}");
}

fn answer(request: Request, printer: &mut Printer<impl Write>) -> Result<Status, Stop> {
    match request {
        Request::Version => tell(Outcome::Text("version", help::version()), printer),
        Request::ManPage => tell(Outcome::Text("man-page", help::man_page()), printer),
        Request::BashCompletion => tell(Outcome::Text("bash-completion", help::bash_completion()), printer),
        Request::Help(topic) => tell(help_on(&words::of_arguments(&topic)), printer),
        Request::Words(words) => match words.as_slice() {
            [] => from_standard_input(printer),
            [dash] if dash == "-" => from_standard_input(printer),
            [line] if is_line(line) => tell(of_line(line.as_bytes()), printer),
            [file] if !is_command(file) => from_file(file, printer),
            [file, ..] if !is_command(file) && Path::new(file).is_file() => {
                let why = format!("{} is a file, and one file is read at a time", notation::shortened(file));
                tell(Outcome::Fault(Fault::of_word(2, why)), printer)
            }
            words => tell(of_arguments(&words::of_arguments(words)), printer),
        },
    }
}

/// Whether one argument is a whole line: a command, and behind a space its words. A file's name may have spaces, too.
fn is_line(argument: &str) -> bool {
    argument.trim_start().split_once([' ', '\t']).is_some_and(|(first, _)| is_command(first))
}

fn is_command(word: &str) -> bool {
    commands::is_command(word) || ["store", "help"].contains(&word)
}

fn help_on(topic: &[words::Word]) -> Outcome {
    help::on(topic).map_or_else(Outcome::Fault, |text| Outcome::Text("help", text))
}

/// One command from the arguments. What was not understood is told where a person looks and no script reads on.
fn tell(outcome: Outcome, printer: &mut Printer<impl Write>) -> Result<Status, Stop> {
    match &outcome {
        Outcome::Fault(fault) if !printer.flags.json => say(format_args!("error {fault}")),
        _ => printer.print(&outcome, 1).map_err(Stop::Output)?,
    }
    Ok(outcome.status())
}

fn of_arguments(words: &[words::Word]) -> Outcome {
    match words.first() {
        Some(first) if first.text == "store" => Outcome::of(commands::store::run(words)),
        _ => of_words(words),
    }
}

fn of_words(words: &[words::Word]) -> Outcome {
    match words.first() {
        Some(first) if first.text == "help" => help_on(&words[1..]),
        _ => Outcome::of(commands::run(words)),
    }
}

/// A line that is one argument.
fn of_line(line: &[u8]) -> Outcome {
    match words::of_line(line) {
        words::Line::Words(words) => of_words(&words),
        words::Line::Wrong(fault) => Outcome::Fault(fault),
        words::Line::Blank | words::Line::Comment(_) => of_words(&[]),
    }
}

fn from_standard_input(printer: &mut Printer<impl Write>) -> Result<Status, Stop> {
    if io::stdin().is_terminal() {
        say(format_args!("A command a line; help lists them, and an end of file (Ctrl-D) ends it."));
    }
    converse("standard input", io::stdin().lock(), printer)
}

fn from_file(name: &str, printer: &mut Printer<impl Write>) -> Result<Status, Stop> {
    match File::open(name) {
        Ok(file) => converse(name, file, printer),
        Err(why) if why.kind() == io::ErrorKind::NotFound => {
            // A name that is no text was changed on its way here: a file of that name may be there.
            let is_text = !name.contains(char::REPLACEMENT_CHARACTER);
            let file = if is_text { "no file of this name" } else { "a file's name must be UTF-8 text" };
            let (meant, name) = (commands::meant(name), notation::shortened(name));
            let why = format!("there is no command {name}{meant}, and {file}; help lists the commands");
            tell(Outcome::Fault(Fault::of_word(1, why)), printer)
        }
        Err(why) => Err(Stop::Input(name.into(), why)),
    }
}

/// A command a line; an answer for each before the next one is waited for.
fn converse(what: &str, input: impl Read, printer: &mut Printer<impl Write>) -> Result<Status, Stop> {
    let mut lines = Lines::of(input);
    let mut first_fault = Status::Accepted;
    loop {
        let (number, line) = match lines.next(|| printer.out.flush()) {
            Ok(Some(next)) => next,
            Ok(None) => break,
            Err(Broken::Pause(why)) => return Err(Stop::Output(why)),
            Err(Broken::Input(why)) => return Err(Stop::Input(what.into(), why)),
        };
        let outcome = match line {
            Line::TooLong => {
                let why = format!("the line has over {} bytes and was skipped", lines::LONGEST);
                Outcome::Fault(Fault::of_line(why))
            }
            Line::Bytes(bytes) => match words::of_line(bytes) {
                words::Line::Blank => continue,
                words::Line::Comment(comment) => {
                    printer.comment(&comment, number).map_err(Stop::Output)?;
                    continue;
                }
                words::Line::Wrong(fault) => Outcome::Fault(fault),
                words::Line::Words(words) => of_words(&words),
            },
        };
        if first_fault == Status::Accepted {
            first_fault = outcome.status();
        }
        printer.print(&outcome, number).map_err(Stop::Output)?;
    }
    Ok(if printer.flags.strict { first_fault } else { Status::Accepted })
}
