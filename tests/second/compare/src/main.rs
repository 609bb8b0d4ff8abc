//! Runs the proved library and the second program on the same cases and compares numbers, every field of the rows of
//! results, and every lent byte.
//!
//! - `compare SEED COUNT` takes checks of spans anywhere in memory and updates, then every small input, and makes COUNT
//!   cases from SEED; then the first quarter of them and the small inputs through the safe wrapper, which must say what
//!   the library said. Calls that it does not have are left out there, and with them those of the settings store: the
//!   wrapper's store takes no memory from outside.
//! - `compare sequences SEED COUNT` makes COUNT sequences of calls of the settings store, each on one memory, and holds
//!   the promise of request 9/14 against the answers; then a store of the wrapper lives through the same calls, but for
//!   those that it cannot be asked, and is held against the second program.
//! - `compare patterns SEED COUNT` makes COUNT words with 3 to 16 wrong bytes, and some with more, and holds what the
//!   library proposes against what was written and against the second program.
//! - `compare words SEED COUNT` runs the program `words`, and with it the chip reader, on its edges and COUNT inputs.
//! - `compare rerun` reads cases from standard input, one a line, and prints what both make of each; of a check also
//!   where in memory it is wrong.
mod checks;
mod proved;
#[path = "../../../../rust/kusikhut/src/raw.rs"]
mod raw;
#[cfg(test)]
mod tests;
mod wrapped;

use checks::{compare_checks, spans, updates};
use proved::{check_in, Proved};
use second::case::{Case, Operation};
use second::compare::{compare, compare_cases, compare_small_inputs};
use second::generator::{small_inputs, words_cases, Cases};
use second::hidden::compare_hidden;
use second::implementation::Second;
use second::patterns::compare_patterns;
use second::sequences::{compare_sequences, CALLS};
use std::io::BufRead;
use std::process::ExitCode;
use wrapped::{Wrapped, WrappedStore};

fn main() -> ExitCode {
    let words: Vec<String> = std::env::args().skip(1).collect();
    let done = match &words[..] {
        [one] if one == "rerun" => rerun(),
        [seed, count] => run(seed, count),
        [one, seed, count] if one == "sequences" => run_sequences(seed, count),
        [one, seed, count] if one == "patterns" => run_patterns(seed, count),
        [one, seed, count] if one == "words" => run_words(seed, count),
        _ => Err("usage: compare [sequences | patterns | words] SEED COUNT | compare rerun".into()),
    };
    match done {
        Ok(()) => ExitCode::SUCCESS,
        Err(why) => {
            eprintln!("{why}");
            ExitCode::FAILURE
        }
    }
}

fn number(text: &str) -> Result<u64, String> {
    text.parse().map_err(|_| format!("{text} is no number"))
}

fn run(seed: &str, count: &str) -> Result<(), String> {
    let (seed, count) = (number(seed)?, number(count)?);
    run_checks(seed)?;
    let differ = |d| format!("the proved library (first) and the second program differ, seed {seed}:\n{d}");
    let small = compare_small_inputs(&Proved, &Second).map_err(differ)?;
    let made = compare(&Proved, &Second, seed, count).map_err(differ)?;
    println!("{made}");
    let (cases, inputs) = (made.total(), small.total());
    println!("tests/second: no difference in {cases} cases from seed {seed} and {inputs} small inputs");
    let differ = |d| format!("the proved library (first) and its wrapper differ, seed {seed}:\n{d}");
    let known = |case: &Case| case.operation.is_call_of(&Wrapped);
    let small = compare_cases(&Proved, &Wrapped, small_inputs().into_iter().filter(known)).map_err(differ)?;
    let quarter = Cases::new(seed).take(count as usize / 4).filter(known);
    let made = compare_cases(&Proved, &Wrapped, quarter).map_err(differ)?;
    let (cases, inputs) = (made.total(), small.total());
    println!("tests/second: the wrapper says the same in {cases} of them and {inputs} inputs, of calls that it has");
    Ok(())
}

fn run_checks(seed: u64) -> Result<(), String> {
    let both = "the proved library (first) and the second program differ";
    let checks = compare_checks(check_in, spans(seed)).map_err(|wrong| format!("{both}, seed {seed}:\n{wrong}"))?;
    let made = compare_cases(&Proved, &Second, updates()).map_err(|d| format!("{both}:\n{d}"))?;
    let updates = made.total();
    println!(
        "tests/second: no difference in {checks} checks, of every length up to 300 bytes and at 16 addresses, and in \
        {updates} updates"
    );
    Ok(())
}

fn run_sequences(seed: &str, count: &str) -> Result<(), String> {
    let (seed, count) = (number(seed)?, number(count)?);
    let made = compare_sequences(&Proved, &Second, seed, count)
        .map_err(|t| format!("the proved library (first) and the second program:\n{t}"))?;
    println!("{made}");
    println!("tests/second: no difference and no broken promise in {count} sequences from seed {seed}");
    let kept = compare_hidden(WrappedStore::empty, &Second, seed, count)
        .map_err(|t| format!("the wrapper's store (first) and the second program:\n{t}"))?;
    println!("{kept}");
    let (calls, all) = (kept.total(), CALLS * count);
    println!(
        "tests/second: the wrapper's store says the same as the second program in {calls} of these {all} calls, and is \
        written and listed alike after each; the others need a memory, mode or format that it cannot be handed"
    );
    Ok(())
}

fn run_patterns(seed: &str, count: &str) -> Result<(), String> {
    let (seed, count) = (number(seed)?, number(count)?);
    let made = compare_patterns(&Proved, &Second, seed, count)
        .map_err(|miss| format!("the proved library (first) and the second program, seed {seed}:\n{miss}"))?;
    println!("{made}");
    println!(
        "tests/second: {count} words with 3 to 16 wrong bytes from seed {seed} mended by both, those with more alike"
    );
    Ok(())
}

fn run_words(seed: &str, count: &str) -> Result<(), String> {
    let cases = words_cases(number(seed)?, number(count)? as usize);
    let made = compare_cases(&Proved, &Second, cases).map_err(|d| {
        let line = first_line_apart(&d.first.lent, &d.second.lent);
        format!("the program words (first) and the second program differ, seed {seed}:\n{}\n{line}", d.case)
    })?;
    println!("tests/second: no difference in {} inputs of the program words, which runs the chip reader", made.total());
    Ok(())
}

/// The first line in which two texts differ.
fn first_line_apart(first: &[u8], second: &[u8]) -> String {
    let lines = |text: &[u8]| -> Vec<String> { String::from_utf8_lossy(text).lines().map(str::to_owned).collect() };
    let (first, second) = (lines(first), lines(second));
    let same = first.iter().zip(&second).take_while(|(a, b)| a == b).count();
    let line = |text: &[String]| text.get(same).cloned().unwrap_or("no line".into());
    format!("line {}: first: {}, second: {}", same + 1, line(&first), line(&second))
}

fn rerun() -> Result<(), String> {
    for line in std::io::stdin().lock().lines() {
        let case = Case::from_text(&line.map_err(|why| why.to_string())?)?;
        println!("proved: {}", case.run(&Proved));
        println!("second: {}", case.run(&Second));
        if case.operation == Operation::Check {
            if let Err(wrong) = compare_checks(check_in, [case.bytes("bytes").to_vec()]) {
                println!("{wrong}");
            }
        }
    }
    Ok(())
}
