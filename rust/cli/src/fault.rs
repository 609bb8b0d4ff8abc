//! Why a line has no answer: it was not understood, or a file could not be used.

#[derive(Debug, PartialEq, Eq)]
pub struct Fault {
    /// The word that is wrong, from 1, where it is one.
    pub word: Option<usize>,
    pub why: String,
    /// How the command is written, where its words are wrong.
    pub usage: Option<String>,
}

impl Fault {
    pub fn of_word(word: usize, why: impl Into<String>) -> Fault {
        Fault { word: Some(word), why: why.into(), usage: None }
    }

    pub fn of_line(why: impl Into<String>) -> Fault {
        Fault { word: None, why: why.into(), usage: None }
    }

    /// With the command's usage, if it is a word that is wrong.
    pub fn in_command(mut self, usage: String) -> Fault {
        self.usage = self.word.is_some().then_some(usage);
        self
    }
}

impl std::fmt::Display for Fault {
    fn fmt(&self, f: &mut std::fmt::Formatter) -> std::fmt::Result {
        if let Some(word) = self.word {
            write!(f, "word {word}: ")?;
        }
        write!(f, "{}", self.why)?;
        match &self.usage {
            Some(usage) => write!(f, "; usage: {usage}"),
            None => Ok(()),
        }
    }
}
