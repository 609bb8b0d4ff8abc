//! The chip reader, and what the program `words` prints of it.

use crate::answer::Refusal;
use crate::chips::{first_word, judge_received, list_of, Code};

/// A chip reader: it keeps the chips of the lent buffer and its place, and takes
/// one code word at a time (01).
pub struct Reader {
    list: Vec<bool>,
    place: usize,
    made: Result<(), Refusal>,
}

impl Reader {
    /// A reader at a start place: 10 when made, and at no other time. A reader
    /// that is not made has nothing, and "nothing" means zeros: place 0.
    pub fn new(chips: &[u8], start: usize) -> Reader {
        let made = judge_received(chips, start);
        let place = if made.is_ok() { start } else { 0 };
        Reader {
            list: list_of(chips),
            place,
            made,
        }
    }

    /// The chip where the reader stands.
    pub fn place(&self) -> usize {
        self.place
    }

    /// The next word's value, the place then behind it. Refusals 1, 6, the
    /// place staying. One that was not made has only its 10 to say again.
    pub fn next(&mut self, code: Code) -> Result<usize, Refusal> {
        self.made?;
        let value = first_word(code, &self.list[self.place..])?;
        self.place += code.chips_in_a_word();
        Ok(value)
    }
}

/// What the program `words` prints for its standard input. The form of both is
/// the program's (the head of crates/words/src/main.rt); what stands in the
/// lines is the chip reader's.
pub fn listing(input: &[u8]) -> String {
    let code = match input.first() {
        Some(b'N' | b'n') => Code::Nrz,
        Some(b'M' | b'm') => Code::Manchester,
        Some(b'T' | b't') => Code::ThreeOfSix,
        _ => return "no such reader\n".to_string(),
    };
    if input.len() < 9 {
        return "no such reader\n".to_string();
    }
    let mut start = 0;
    for &byte in &input[1..9] {
        start = 256 * start + byte as usize;
    }
    let one_reader = input[0].is_ascii_lowercase();
    let chips = &input[9..];

    let mut text = "number place value\n".to_string();
    let mut reader = Reader::new(chips, start);
    loop {
        let answer = reader.next(code);
        text.push_str(&line(&answer, reader.place()));
        if answer.is_err() {
            break;
        }
        if !one_reader {
            reader = Reader::new(chips, reader.place());
        }
    }
    if one_reader {
        let again = reader.next(code);
        text.push_str(&line(&again, reader.place()));
    }
    text
}

fn line(answer: &Result<usize, Refusal>, place: usize) -> String {
    match answer {
        Ok(value) => format!("0 {place} {value}\n"),
        Err(refusal) => format!("{} {place} {}\n", refusal.number(), refusal.value()),
    }
}
