//! Runs cases by hand.
//!
//! - `second cases SEED COUNT` makes cases and prints them, one a line.
//! - `second rerun` reads cases from standard input, one a line, and prints
//!   what the second program makes of each.
//! - `second sequence SEED INDEX` prints the calls of a sequence of the settings
//!   store, one a line, each as a case with the memory that it finds.
//! - `second stats SEED COUNT` makes cases and prints how often each operation
//!   gave each answer number; `second sequences SEED COUNT` does so for sequences.
//! - `second patterns SEED COUNT` makes patterns of wrong bytes, mends them, and
//!   prints how many there were with each number of wrong bytes.

use std::io::BufRead;
use std::process::ExitCode;

use second::case::Case;
use second::compare::compare;
use second::generator::Cases;
use second::implementation::Second;
use second::patterns::compare_patterns;
use second::sequences::{cases_of, compare_sequences};

const USAGE: &str = "usage: second cases SEED COUNT | second rerun | second stats SEED COUNT | \
    second sequence SEED INDEX | second sequences SEED COUNT | second patterns SEED COUNT";

fn main() -> ExitCode {
    let arguments: Vec<String> = std::env::args().skip(1).collect();
    let words: Vec<&str> = arguments.iter().map(String::as_str).collect();
    let done = match words[..] {
        ["rerun"] => rerun(),
        ["cases", seed, count] => cases(seed, count),
        ["patterns", seed, count] => patterns(seed, count),
        ["sequence", seed, index] => sequence(seed, index),
        ["sequences", seed, count] => sequences(seed, count),
        ["stats", seed, count] => stats(seed, count),
        _ => Err(USAGE.to_string()),
    };
    match done {
        Ok(()) => ExitCode::SUCCESS,
        Err(message) => {
            eprintln!("{message}");
            ExitCode::FAILURE
        }
    }
}

fn rerun() -> Result<(), String> {
    for line in std::io::stdin().lock().lines() {
        let line = line.map_err(|error| error.to_string())?;
        println!("{}", Case::from_text(&line)?.run(&Second));
    }
    Ok(())
}

fn number(text: &str) -> Result<u64, String> {
    text.parse().map_err(|_| format!("{text}: not a number"))
}

fn cases(seed: &str, count: &str) -> Result<(), String> {
    let count = number(count)?;
    for case in Cases::new(number(seed)?).take(count as usize) {
        println!("{case}");
    }
    Ok(())
}

fn patterns(seed: &str, count: &str) -> Result<(), String> {
    let (seed, count) = (number(seed)?, number(count)?);
    let counts = compare_patterns(&Second, &Second, seed, count).map_err(|m| m.to_string())?;
    println!("{counts}");
    Ok(())
}

fn sequence(seed: &str, index: &str) -> Result<(), String> {
    for case in cases_of(&Second, number(seed)?, number(index)?) {
        println!("{case}");
    }
    Ok(())
}

fn stats(seed: &str, count: &str) -> Result<(), String> {
    let (seed, count) = (number(seed)?, number(count)?);
    let stats = compare(&Second, &Second, seed, count).map_err(|d| d.to_string())?;
    println!("{stats}");
    Ok(())
}

fn sequences(seed: &str, count: &str) -> Result<(), String> {
    let (seed, count) = (number(seed)?, number(count)?);
    let stats = compare_sequences(&Second, &Second, seed, count).map_err(|t| t.to_string())?;
    println!("{stats}");
    Ok(())
}
