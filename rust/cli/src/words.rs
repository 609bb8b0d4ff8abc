//! A line taken apart: blank, a comment, or words. Words are set apart by spaces; one that begins with a quotation mark
//! goes up to the next, so that bytes may have spaces in them. A comment begins with # at the start of a word.
use crate::fault::Fault;
use crate::notation::tame;

/// A word, and which one of its line it is, from 1.
#[derive(Clone, Copy, Debug, PartialEq, Eq)]
pub struct Word<'a> {
    pub at: usize,
    pub text: &'a str,
}

#[derive(Debug, PartialEq, Eq)]
pub enum Line<'a> {
    Blank,
    /// A line of nothing but a comment, as it is passed on.
    Comment(String),
    Words(Vec<Word<'a>>),
    /// It cannot be taken apart.
    Wrong(Fault),
}

/// Takes a line apart. Only a comment may hold bytes that are no text.
pub fn of_line(line: &[u8]) -> Line<'_> {
    let line = line.trim_ascii_end();
    match line.trim_ascii_start().first() {
        None => return Line::Blank,
        Some(b'#') => return Line::Comment(tame(&String::from_utf8_lossy(line.trim_ascii_start()))),
        Some(_) => {}
    }
    let text = match std::str::from_utf8(&line[..comment_start(line)]) {
        Ok(text) => text.trim_end(),
        Err(why) => return wrong_at(&line[..why.valid_up_to()], "is no UTF-8 text"),
    };
    match text.char_indices().find(|&(_, c)| c.is_control() && c != '\t') {
        Some((before, c)) => wrong_at(&line[..before], &control(c)),
        None => split(text).map_or_else(Line::Wrong, Line::Words),
    }
}

/// What is wrong with a character that no command has.
fn control(c: char) -> String {
    let hint = if c == '\r' { "; a line ends in LF or in CR and LF" } else { "" };
    format!("is the control character {:02X}, and belongs in no command{hint}", c as u32)
}

/// The character behind these is wrong.
fn wrong_at(before: &[u8], why: &str) -> Line<'static> {
    Line::Wrong(Fault::of_line(format!("character {} {why}", String::from_utf8_lossy(before).chars().count() + 1)))
}

/// The words of a program's arguments: each is one, whatever is in it.
pub fn of_arguments(arguments: &[String]) -> Vec<Word<'_>> {
    arguments.iter().enumerate().map(|(before, text)| Word { at: before + 1, text }).collect()
}

const QUOTES: [u8; 2] = [b'"', b'\''];

/// Where a comment begins behind a command, or the line's length.
fn comment_start(line: &[u8]) -> usize {
    let (mut at, mut quote, mut begins) = (0, None, true);
    while let Some(&b) = line.get(at) {
        match quote {
            Some(mark) if b == mark => quote = None,
            Some(_) => {}
            None if begins && b == b'#' => return at,
            None if begins && QUOTES.contains(&b) => quote = Some(b),
            None => {}
        }
        begins = quote.is_none() && (b == b' ' || b == b'\t');
        at += 1;
    }
    at
}

fn split(text: &str) -> Result<Vec<Word<'_>>, Fault> {
    let mut words = Vec::with_capacity(4);
    let mut rest = text.trim_start_matches(BLANK);
    while let Some(first) = rest.as_bytes().first() {
        let at = words.len() + 1;
        let (word, behind) = if QUOTES.contains(first) { quoted(rest, at)? } else { bare(rest) };
        words.push(Word { at, text: word });
        rest = behind.trim_start_matches(BLANK);
    }
    Ok(words)
}

const BLANK: [char; 2] = [' ', '\t'];

fn bare(text: &str) -> (&str, &str) {
    text.split_at(text.find(BLANK).unwrap_or(text.len()))
}

/// The word between two quotation marks, which text begins with, and what stands behind it.
fn quoted(text: &str, at: usize) -> Result<(&str, &str), Fault> {
    let (mark, inside) = text.split_at(1);
    let not_closed = || Fault::of_word(at, format!("its quotation mark {mark} is not closed"));
    let (word, behind) = inside.split_once(mark).ok_or_else(not_closed)?;
    if behind.is_empty() || behind.starts_with(BLANK) {
        Ok((word, behind))
    } else {
        Err(Fault::of_word(at, "a space belongs behind its closing quotation mark"))
    }
}

#[cfg(test)]
mod tests {
    use super::*;

    fn texts(line: &str) -> Vec<&str> {
        match of_line(line.as_bytes()) {
            Line::Words(words) => words.iter().map(|w| w.text).collect(),
            other => panic!("{line}: {other:?}"),
        }
    }

    #[test]
    fn words_quotes_and_comments() {
        assert_eq!(texts("read A 0F"), ["read", "A", "0F"]);
        assert_eq!(texts("\tread  A\t0F  "), ["read", "A", "0F"]);
        assert_eq!(texts("change A \"0F 44\" 12 '44'"), ["change", "A", "0F 44", "12", "44"]);
        assert_eq!(texts("check 00 # Prüfung: it's fine"), ["check", "00"]);
        assert_eq!(texts("check 0#0"), ["check", "0#0"]);
        assert_eq!(texts("check \"0 # 0\""), ["check", "0 # 0"]);
        assert_eq!(of_line(b"  "), Line::Blank);
        assert_eq!(of_line("# é".as_bytes()), Line::Comment("# é".into()));
        assert_eq!(of_line(b"# \xFF\x1B"), Line::Comment("# \u{FFFD}\u{FFFD}".into()));
        for (wrong, why) in [
            (&b"check \"00"[..], "word 2: its quotation mark \" is not closed"),
            (b"check \"00\"00", "word 2: a space belongs behind its closing quotation mark"),
            (b"  check \xFF", "character 9 is no UTF-8 text"),
            (b"\tcheck \0", "character 8 is the control character 00, and belongs in no command"),
        ] {
            assert!(matches!(of_line(wrong), Line::Wrong(fault) if fault.to_string() == why), "{wrong:?}");
        }
    }
}
