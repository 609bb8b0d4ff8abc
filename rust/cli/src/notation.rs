//! How bytes and numbers are written on a command line: one rule for all bytes, one for all numbers.
//!
//! - Bytes are hex digits, two for each, in the order in which they are sent. Case does not matter; between bytes there
//!   may be spaces, colons and underscores, and each group may begin with 0x. `-` is no bytes, and `44AE+3*00` is 44 AE
//!   and three times 00.
//! - Numbers are decimal, or hex behind 0x.

/// The most bytes of an argument, so that a short line with `+N*XX` in it cannot ask for all of memory.
pub const MOST_BYTES: u64 = 65_536;

pub const QUOTES: [char; 2] = ['"', '\''];

/// What may stand between bytes.
const BETWEEN: [char; 4] = [' ', '\t', ':', '_'];

/// What the text writes as bytes, or what is wrong with it, as words that follow the argument's name.
pub fn bytes(text: &str) -> Result<Vec<u8>, String> {
    if text == "-" {
        return Ok(Vec::new());
    }
    if text.is_empty() {
        return Err("is empty; - stands for no bytes".into());
    }
    match text.split_once('+') {
        None => groups(text),
        Some((first, repeated)) => {
            let mut all = if first.is_empty() || first == "-" { Vec::new() } else { groups(first)? };
            let (count, byte) = run(repeated)?;
            let size = count.saturating_add(all.len() as u64);
            within_limit(size)?;
            all.resize(size as usize, byte);
            Ok(all)
        }
    }
}

/// Whether a word is a group of digits like the first of its bytes: as long, and short as people write them.
pub fn is_group_like(word: &str, first: &str) -> bool {
    const LONGEST_GROUP: usize = 8;
    let length = without_prefix(word).len();
    length == without_prefix(first).len() && length <= LONGEST_GROUP && !first.contains('-') && !first.contains('+')
}

/// Whether an argument may have so many bytes.
pub fn within_limit(size: u64) -> Result<(), String> {
    if size > MOST_BYTES {
        Err(format!("has {size} bytes and may have at most {MOST_BYTES}"))
    } else {
        Ok(())
    }
}

/// `N*XX` behind the plus sign: how many bytes, and which.
fn run(text: &str) -> Result<(u64, u8), String> {
    let wrong = || format!("has {} where +COUNT*BYTE belongs, as in +3*00", shortened(&format!("+{text}")));
    let (count, byte) = text.split_once('*').ok_or_else(wrong)?;
    let count = number(count).map_err(|_| wrong())?;
    match groups(byte).map_err(|_| wrong())?[..] {
        [byte] => Ok((count, byte)),
        _ => Err(wrong()),
    }
}

fn groups(text: &str) -> Result<Vec<u8>, String> {
    let mut all = Vec::with_capacity(text.len() / 2);
    for group in text.split(BETWEEN).filter(|group| !group.is_empty()) {
        let digits = without_prefix(group);
        if digits.is_empty() || digits.len() % 2 == 1 || !digits.bytes().all(|b| b.is_ascii_hexdigit()) {
            return Err(fault(text, group, digits));
        }
        all.extend(digits.as_bytes().chunks(2).map(|pair| digit(pair[0]) << 4 | digit(pair[1])));
    }
    within_limit(all.len() as u64)?;
    if all.is_empty() {
        Err("has no hex digit; - stands for no bytes".into())
    } else {
        Ok(all)
    }
}

/// What is wrong with a group: a character that is no digit, or half a byte.
fn fault(text: &str, group: &str, digits: &str) -> String {
    if let Some((before, odd)) = digits.char_indices().find(|(_, c)| !c.is_ascii_hexdigit()) {
        // The digits are a part of the text, so that their addresses tell where they begin in it.
        let begin = digits.as_ptr() as usize - text.as_ptr() as usize;
        let at = text[..begin + before].chars().count() + 1;
        let hint = if QUOTES.contains(&odd) { "; quotation marks go around the whole word" } else { "" };
        return format!(
            "has {} as character {at}, which is no hex digit{hint}",
            shortened(odd.encode_utf8(&mut [0; 4]))
        );
    }
    let whole = if group == text { String::new() } else { format!(" in {}", shortened(group)) };
    format!("has {}{whole}; a byte is two", counted(digits.len(), "hex digit"))
}

fn without_prefix(group: &str) -> &str {
    group.strip_prefix("0x").or_else(|| group.strip_prefix("0X")).unwrap_or(group)
}

fn digit(character: u8) -> u8 {
    match character {
        b'0'..=b'9' => character - b'0',
        _ => (character | 0x20) - b'a' + 10,
    }
}

/// What the text writes as a number, or what is wrong with it, as words that follow the argument's name.
pub fn number(text: &str) -> Result<u64, String> {
    number_to(text, u64::MAX)
}

/// The same for a number that is at most `most`.
pub fn number_to(text: &str, most: u64) -> Result<u64, String> {
    let hex = without_prefix(text);
    let (digits, radix) = if hex.len() < text.len() { (hex, 16) } else { (text, 10) };
    if digits.is_empty() || !digits.chars().all(|c| c.is_digit(radix)) {
        let hex_meant =
            radix == 10 && text.len() <= 16 && !text.is_empty() && text.bytes().all(|b| b.is_ascii_hexdigit());
        let hint = if hex_meant { format!("; hex is written 0x{text}") } else { "; hex is written 0x1F".into() };
        return Err(format!("is {} and must be a decimal number{hint}", shortened(text)));
    }
    let number = u64::from_str_radix(digits, radix).ok().filter(|&number| number <= most);
    number.ok_or_else(|| format!("is {} and may be at most {most}", shortened(text)))
}

/// How many hex digits the text has, if it has nothing else but what may stand between bytes.
pub fn digits_in(text: &str) -> Option<usize> {
    let mut groups = text.split(BETWEEN).map(without_prefix);
    groups.try_fold(0, |count, digits| digits.bytes().all(|b| b.is_ascii_hexdigit()).then_some(count + digits.len()))
}

/// Bytes as hex digits, and no bytes as a minus sign.
pub fn shown(bytes: &[u8]) -> String {
    if bytes.is_empty() {
        "-".into()
    } else {
        hex(bytes)
    }
}

pub fn hex(bytes: &[u8]) -> String {
    const DIGITS: &[u8; 16] = b"0123456789ABCDEF";
    bytes.iter().flat_map(|b| [DIGITS[usize::from(b >> 4)], DIGITS[usize::from(b & 15)]]).map(char::from).collect()
}

/// A text as it may be printed: without what a terminal would obey.
pub fn tame(text: &str) -> String {
    text.chars().map(|c| if c.is_control() && c != '\t' { char::REPLACEMENT_CHARACTER } else { c }).collect()
}

/// A word for a message: to be seen, not too long, and nothing in it that a terminal would obey.
pub fn shortened(text: &str) -> String {
    const MOST: usize = 24;
    if text.is_empty() {
        return "\"\"".into();
    }
    let end = text.char_indices().nth(MOST).map(|(at, _)| at);
    tame(&text[..end.unwrap_or(text.len())]) + if end.is_some() { ".." } else { "" }
}

/// `1 digit`, `2 digits`.
pub fn counted(count: usize, thing: &str) -> String {
    counted_as(count, thing, &format!("{thing}s"))
}

/// The same for a thing whose plural has no s alone.
pub fn counted_as(count: usize, one: &str, many: &str) -> String {
    format!("{count} {}", if count == 1 { one } else { many })
}

#[cfg(test)]
mod tests {
    use super::*;

    #[test]
    fn one_rule_for_bytes() {
        for text in ["0F44AE", "0f44ae", "0F 44 AE", "0F:44:AE", "0F_44_AE", "0x0F44AE", "0x0F 0x44 0xae", "0F44+1*AE"]
        {
            assert_eq!(bytes(text), Ok(vec![0x0F, 0x44, 0xAE]), "{text}");
        }
        assert_eq!(bytes("-"), Ok(vec![]));
        assert_eq!(bytes("+3*EE"), Ok(vec![0xEE; 3]));
        assert_eq!(bytes("44+0*00"), Ok(vec![0x44]));
        assert_eq!(bytes("00+65535*00"), Ok(vec![0; MOST_BYTES as usize]));
        for text in
            ["", "4", "4G", "0F 4", "0x", ":", "+", "44+", "44+3", "44+3*", "44+3*0", "44+x*00", "44+65536*00", "ä"]
        {
            assert!(bytes(text).is_err(), "{text}");
        }
    }

    #[test]
    fn a_fault_names_the_character() {
        for (text, at) in [("4G", 2), ("0x4G", 4), ("0x0F 0x4x", 9), ("44::4x", 6), ("ä", 1), ("44 ä4", 4)] {
            let why = bytes(text).expect_err("it is wrong");
            assert!(why.contains(&format!("as character {at},")), "{text}: {why}");
        }
        assert_eq!(bytes("4\u{1B}"), Err("has \u{FFFD} as character 2, which is no hex digit".into()));
        assert_eq!(bytes("0F 0x4"), Err("has 1 hex digit in 0x4; a byte is two".into()));
    }

    #[test]
    fn one_rule_for_numbers() {
        assert_eq!([number("15"), number("0x0F"), number("0xf"), number("015")], [Ok(15), Ok(15), Ok(15), Ok(15)]);
        assert_eq!(number("18446744073709551615"), Ok(u64::MAX));
        assert_eq!(number_to("0x100", 255), Err("is 0x100 and may be at most 255".into()));
        assert_eq!(
            number_to("18446744073709551616", 255),
            Err("is 18446744073709551616 and may be at most 255".into())
        );
        for text in ["", "0F", "-1", "+1", "1.5", "0x", "18446744073709551616", "0x10000000000000000", " 1"] {
            assert!(number(text).is_err(), "{text}");
        }
    }

    #[test]
    fn what_is_shown_is_read() {
        for shown_bytes in [vec![], vec![0], vec![0x44, 0xAE, 0]] {
            assert_eq!(bytes(&shown(&shown_bytes)), Ok(shown_bytes));
        }
    }
}
