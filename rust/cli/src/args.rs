//! The words of a command: those in order, and the options `name=value`. Each fault names the argument, what was there and
//! what belongs there.
use crate::fault::Fault;
use crate::notation::{self, counted, digits_in, shortened};
use crate::reply::Fields;
use crate::words::Word;
use std::path::Path;

pub struct Args<'a> {
    words: Vec<Word<'a>>,
    options: Vec<(usize, &'a str, &'a str)>,
    taken: Vec<&'a str>,
    next: usize,
    last: usize,
    had_bytes: bool,
}

/// Memory lent to a call, and how much of it the line wants to see.
pub struct Lent {
    pub bytes: Vec<u8>,
    sized: bool,
    shown: bool,
}

/// The most that a command lends, so that a wish for all of memory is a fault and no crash: two bytes of chips for each
/// byte of the longest argument.
pub const MOST_LENT: usize = 131_072;

impl Lent {
    /// So many bytes for a command without the options, of which nothing but the result is told.
    pub fn unasked(size: usize) -> Lent {
        Lent { bytes: vec![0; size], sized: false, shown: false }
    }

    /// The result at the start of the memory under its own name, whole, and how many bytes are left if `room` was given.
    pub fn result(&self, fields: Fields, name: &'static str, size: u64) -> Fields {
        let fields = fields.bytes(name, &self.bytes[..size as usize]);
        if self.sized {
            fields.number("left", self.bytes.len() as u64 - size)
        } else {
            fields
        }
    }

    /// All of the memory after the call, if the line asked for it.
    pub fn all(&self, fields: Fields) -> Fields {
        if self.shown {
            fields.bytes("lent", &self.bytes)
        } else {
            fields
        }
    }

    pub fn room(&self) -> u64 {
        self.bytes.len() as u64
    }
}

impl<'a> Args<'a> {
    /// The words behind the command's name, which is word 1.
    pub fn of(words: &[Word<'a>]) -> Args<'a> {
        let (words_only, last) = (Vec::with_capacity(words.len()), words.len());
        let mut args =
            Args { words: words_only, options: Vec::new(), taken: Vec::new(), next: 0, last, had_bytes: false };
        for word in words.iter().skip(1) {
            match word.text.split_once('=') {
                Some((name, value)) => args.options.push((word.at, name, value)),
                None => args.words.push(*word),
            }
        }
        args
    }

    /// The same, none of them an option: what they name may have any characters.
    pub fn plain(words: &[Word<'a>]) -> Args<'a> {
        let plain = words.iter().skip(1).copied().collect();
        Args { words: plain, options: Vec::new(), taken: Vec::new(), next: 0, last: words.len(), had_bytes: false }
    }

    pub fn word(&mut self, what: &str) -> Result<Word<'a>, Fault> {
        let word = self.words.get(self.next).copied();
        self.next += 1;
        word.ok_or_else(|| Fault::of_word(self.last + 1, format!("{what} is missing")))
    }

    /// Which word of the line comes next.
    pub fn place(&self) -> usize {
        self.words.get(self.next).map_or(self.last + 1, |word| word.at)
    }

    /// Bytes in one word.
    pub fn bytes(&mut self, what: &str) -> Result<Vec<u8>, Fault> {
        let word = self.word(what)?;
        self.had_bytes = true;
        read_bytes(word, what)
    }

    /// Bytes in all the words that are left: where bytes come last, spaces between them need no quotation marks. Several
    /// words are taken only as people write bytes, in groups of the same few digits. Any other word is more likely a number
    /// whose name was forgotten, or a second capture.
    pub fn last_bytes(&mut self, what: &str) -> Result<Vec<u8>, Fault> {
        let first = self.words.get(self.next).map_or("", |word| word.text);
        let mut all = self.bytes(what)?;
        while self.more() {
            let word = self.word(what)?;
            if !notation::is_group_like(word.text, first) {
                let hint =
                    "bytes in several words are groups of as many digits, 2 to 8; others stand in quotation marks";
                return Err(Fault::of_word(word.at, format!("{} is one word too many; {hint}", shortened(word.text))));
            }
            all.append(&mut read_bytes(word, what)?);
            notation::within_limit(all.len() as u64).map_err(|why| Fault::of_word(word.at, format!("{what} {why}")))?;
        }
        Ok(all)
    }

    /// `N` bytes, written as exactly twice as many hex digits.
    pub fn fixed<const N: usize>(&mut self, what: &str) -> Result<[u8; N], Fault> {
        let word = self.word(what)?;
        self.had_bytes = true;
        read_fixed(word.at, word.text, what)
    }

    pub fn byte(&mut self, what: &str) -> Result<u8, Fault> {
        Ok(self.fixed::<1>(what)?[0])
    }

    pub fn number(&mut self, what: &str) -> Result<usize, Fault> {
        let word = self.word(what)?;
        read_number(word.at, word.text, what)
    }

    /// A number that is at most `most`.
    pub fn number_to(&mut self, what: &str, most: usize) -> Result<usize, Fault> {
        let word = self.word(what)?;
        limited(word.at, word.text, what, most)
    }

    /// A file's name. One that is no text was changed on its way here, and would be another file's.
    pub fn path(&mut self, what: &str) -> Result<&'a Path, Fault> {
        let word = self.word(what)?;
        if word.text.contains(char::REPLACEMENT_CHARACTER) {
            return Err(Fault::of_word(word.at, format!("{what} is no UTF-8 text")));
        }
        Ok(Path::new(word.text))
    }

    pub fn choice<T: Copy>(&mut self, what: &str, from: &[(&str, T)]) -> Result<T, Fault> {
        let word = self.word(what)?;
        from.iter().find(|(name, _)| name.eq_ignore_ascii_case(word.text)).map(|&(_, value)| value).ok_or_else(|| {
            let names: Vec<&str> = from.iter().map(|&(name, _)| name).collect();
            Fault::of_word(
                word.at,
                format!("{what} is {} and must be one of {}", shortened(word.text), names.join(", ")),
            )
        })
    }

    /// Whether words are left.
    pub fn more(&self) -> bool {
        self.next < self.words.len()
    }

    /// An option's word and text, where it is given.
    pub fn option(&mut self, name: &str) -> Option<(usize, &'a str)> {
        let place = self.options.iter().position(|&(_, given, _)| given == name)?;
        let (at, name, value) = self.options.remove(place);
        self.taken.push(name);
        Some((at, value))
    }

    /// An option's number, or what it means to leave it out.
    pub fn option_number(&mut self, name: &str, otherwise: usize) -> Result<usize, Fault> {
        self.option(name).map_or(Ok(otherwise), |(at, text)| read_number(at, text, name))
    }

    /// An option's bytes, where it is given, as many as it has.
    pub fn option_bytes(&mut self, name: &str) -> Result<Option<Vec<u8>>, Fault> {
        self.option(name).map(|(at, text)| read_bytes(Word { at, text }, name)).transpose()
    }

    /// An option's bytes, where it is given: so many.
    pub fn option_fixed<const N: usize>(&mut self, name: &str) -> Result<Option<[u8; N]>, Fault> {
        self.option(name).map(|(at, text)| read_fixed(at, text, name)).transpose()
    }

    /// The memory that `room`, `fill` and `show` ask to be lent; without `room`, as many bytes as `otherwise`.
    pub fn lent(&mut self, otherwise: usize) -> Result<Lent, Fault> {
        let room = self.option("room");
        let size = room.map_or(Ok(otherwise.min(MOST_LENT)), |(at, text)| limited(at, text, "room", MOST_LENT))?;
        let fill = self.option_fixed::<1>("fill")?.unwrap_or([0])[0];
        Ok(Lent { bytes: vec![fill; size], sized: room.is_some(), shown: self.shows_lent()? })
    }

    /// Memory that a call changes in place.
    pub fn lent_in_place(&mut self, bytes: Vec<u8>) -> Result<Lent, Fault> {
        Ok(Lent { bytes, sized: false, shown: self.shows_lent()? })
    }

    fn shows_lent(&mut self) -> Result<bool, Fault> {
        match self.option("show") {
            None => Ok(false),
            Some((_, "lent")) => Ok(true),
            Some((at, other)) => Err(Fault::of_word(at, format!("show is {} and must be lent", shortened(other)))),
        }
    }

    /// Nothing may be left over: a word too many is more likely a mistake than meant.
    pub fn end(self) -> Result<(), Fault> {
        if let Some(word) = self.words.get(self.next) {
            let hint = if self.had_bytes { "; bytes with spaces stand in quotation marks" } else { "" };
            return Err(Fault::of_word(word.at, format!("{} is one word too many{hint}", shortened(word.text))));
        }
        match self.options.first() {
            Some(&(at, name, _)) if self.taken.contains(&name) => {
                Err(Fault::of_word(at, format!("{name} stands there twice")))
            }
            Some(&(at, name, _)) => Err(Fault::of_word(at, format!("this command has no option {}", shortened(name)))),
            None => Ok(()),
        }
    }
}

fn read_bytes(word: Word, what: &str) -> Result<Vec<u8>, Fault> {
    notation::bytes(word.text).map_err(|why| Fault::of_word(word.at, format!("{what} {why}")))
}

fn read_fixed<const N: usize>(at: usize, text: &str, what: &str) -> Result<[u8; N], Fault> {
    let hex = notation::bytes(text);
    if let Ok(Ok(bytes)) = hex.as_ref().map(|bytes| <[u8; N]>::try_from(&bytes[..])) {
        return Ok(bytes);
    }
    // Half a byte too many is a matter of the count, as a whole one is; a letter that is no digit is told as such.
    let why = match (hex, digits_in(text)) {
        (Err(why), None) => why,
        (Err(_), Some(digits)) => wrong_count(digits, N),
        (Ok(bytes), _) => wrong_count(2 * bytes.len(), N),
    };
    Err(Fault::of_word(at, format!("{what} {why}")))
}

fn wrong_count(digits: usize, bytes: usize) -> String {
    format!("has {} and needs {}", counted(digits, "digit"), 2 * bytes)
}

fn read_number(at: usize, text: &str, what: &str) -> Result<usize, Fault> {
    limited(at, text, what, usize::MAX)
}

fn limited(at: usize, text: &str, what: &str, most: usize) -> Result<usize, Fault> {
    let number = notation::number_to(text, most as u64).map_err(|why| Fault::of_word(at, format!("{what} {why}")))?;
    Ok(number as usize)
}
