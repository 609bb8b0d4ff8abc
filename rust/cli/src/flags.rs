//! What the program is asked for: flags, which may stand anywhere, and words.
use crate::fault::Fault;
use crate::notation::shortened;

/// How answers are printed, and what counts.
#[derive(Clone, Copy, Debug, Default, PartialEq, Eq)]
pub struct Flags {
    /// One JSON object a line.
    pub json: bool,
    /// Each line of an answer begins with the number of the line that it answers.
    pub numbered: bool,
    /// The first error or refusal of a stream is the program's status.
    pub strict: bool,
}

#[derive(Debug, PartialEq, Eq)]
pub enum Request {
    /// Help on all, or on the words behind it.
    Help(Vec<String>),
    Version,
    ManPage,
    BashCompletion,
    Words(Vec<String>),
}

/// Every flag with what it does, as `--help` and the man page show them.
pub const FLAGS: [(&str, &str); 7] = [
    ("--json", "print one JSON object for each line, with the line's number and the same fields"),
    ("--numbered", "begin each line of an answer with the number of the line that it answers"),
    ("--strict", "of many lines, exit with the status of the first error or refusal"),
    ("--help", "print this, or with a command what there is to say of it; also -h"),
    ("--version", "print the version; also -V"),
    ("--man-page", "print the man page"),
    ("--bash-completion", "print the script that completes commands in bash"),
];

/// Flags and request of the program's arguments. Behind `--` nothing is a flag.
pub fn of(arguments: impl IntoIterator<Item = String>) -> Result<(Flags, Request), Fault> {
    let (mut flags, mut asked, mut words) = (Flags::default(), None, Vec::new());
    let mut arguments = arguments.into_iter();
    let mut at = 0;
    while let Some(argument) = arguments.next() {
        at += 1;
        match argument.as_str() {
            "--" => {
                words.extend(arguments);
                break;
            }
            "--json" => flags.json = true,
            "--numbered" => flags.numbered = true,
            "--strict" => flags.strict = true,
            "--help" | "-h" => asked = Some(Request::Help(Vec::new())),
            "--version" | "-V" => asked = Some(Request::Version),
            "--man-page" => asked = Some(Request::ManPage),
            "--bash-completion" => asked = Some(Request::BashCompletion),
            flag if flag.starts_with("--") => {
                return Err(Fault::of_word(at, format!("there is no flag {}; --help lists them", shortened(flag))));
            }
            _ => words.push(argument),
        }
    }
    // `help read --help` asks twice for the same.
    let topic = usize::from(words.first().is_some_and(|word| word == "help"));
    Ok((
        flags,
        match asked {
            Some(Request::Help(_)) => Request::Help(words.split_off(topic)),
            Some(other) => other,
            None => Request::Words(words),
        },
    ))
}

#[cfg(test)]
mod tests {
    use super::*;

    fn request(line: &str) -> (Flags, Request) {
        of(line.split(' ').map(String::from)).expect("these are flags and words")
    }

    #[test]
    fn flags_stand_anywhere() {
        let words = |words: &[&str]| Request::Words(words.iter().map(|w| w.to_string()).collect());
        let json = Flags { json: true, ..Flags::default() };
        assert_eq!(request("check 00 --json"), (json, words(&["check", "00"])));
        assert_eq!(request("--json check 00"), (json, words(&["check", "00"])));
        assert_eq!(request("store -- --json show"), (Flags::default(), words(&["store", "--json", "show"])));
        assert_eq!(request("read --help").1, Request::Help(vec!["read".into()]));
        assert_eq!(request("help read --help").1, Request::Help(vec!["read".into()]));
        assert!(of(["--fast".to_string()]).is_err());
    }
}
