//! A refusal: its number and the one value that it may carry are the library's; every word about it is docs/RULES.md's.
use std::fmt;
use std::sync::OnceLock;

const PAGE: &str = include_str!("../../../docs/RULES.md");

/// A row of the page's table of answers: what the page says of an answer's number.
#[derive(Clone, Copy, Debug, PartialEq, Eq)]
pub struct Answer {
    pub number: u8,
    /// The answer in one word, for scripts.
    pub name: &'static str,
    /// The name of the one value that it carries, where it carries one.
    pub value: Option<&'static str>,
    /// When it is given.
    pub meaning: &'static str,
}

/// Every answer, 0 for accepted among them, in the page's order.
pub fn answers() -> &'static [Answer] {
    static ROWS: OnceLock<Vec<Answer>> = OnceLock::new();
    ROWS.get_or_init(|| PAGE.lines().filter_map(row).collect())
}

/// The answer with this number, if there is one.
pub fn answer(number: u8) -> Option<Answer> {
    answers().iter().find(|answer| answer.number == number).copied()
}

/// The answer of a line of the page, if the line is a row of the table of answers.
fn row(line: &'static str) -> Option<Answer> {
    let mut cells = line.strip_prefix('|')?.split('|').map(str::trim);
    let number = cells.next()?.parse().ok()?;
    let (name, value, meaning) = (cells.next()?, cells.nth(1)?, cells.next()?);
    let bare = |cell: &'static str| cell.trim_matches('`');
    Some(Answer { number, name: bare(name), value: (!value.is_empty()).then_some(bare(value)), meaning })
}

#[derive(Clone, Copy, Debug, PartialEq, Eq)]
pub struct Refusal {
    number: u8,
    value: u64,
}

impl Refusal {
    /// The refusal that a call's number and its results tell. All results but the refusal's value are zero, so that the
    /// value is their sum.
    pub(crate) fn of(number: u8, results: &[u64]) -> Refusal {
        Refusal { number, value: results.iter().sum() }
    }

    pub fn number(self) -> u8 {
        self.number
    }

    /// The refusal in one word, for scripts.
    pub fn name(self) -> &'static str {
        self.answer().name
    }

    /// The value that the refusal carries, with its name.
    pub fn value(self) -> Option<(&'static str, u64)> {
        self.answer().value.map(|name| (name, self.value))
    }

    fn answer(self) -> Answer {
        answer(self.number).unwrap_or_else(|| unreachable!("the library answers no number {}", self.number))
    }
}

impl fmt::Display for Refusal {
    fn fmt(&self, f: &mut fmt::Formatter) -> fmt::Result {
        write!(f, "{} {}", self.number, self.name())?;
        match self.value() {
            Some((name, value)) => write!(f, " {name}={value}"),
            None => Ok(()),
        }
    }
}

#[cfg(test)]
mod tests {
    use super::*;

    #[test]
    fn the_page_has_a_word_for_every_number() {
        let told = |number, value| Refusal { number, value }.to_string();
        assert_eq!(
            [told(1, 0), told(3, 2), told(14, 5)],
            ["1 too-short", "3 wrong-check block=2", "14 allowance-used-up tried=5"]
        );
        for number in (0..=14).chain(17..=26) {
            let answer = answer(number).unwrap_or_else(|| panic!("{number} has no row"));
            assert!(
                answer.name.bytes().all(|b| b == b'-' || b.is_ascii_lowercase()) && !answer.meaning.is_empty(),
                "{number}"
            );
        }
        assert_eq!(answers().len(), 25, "no other table of the page has rows that begin with a number");
    }
}
