//! An answer before it is printed: number and name, then fields, each with its kind of value, then what stands below it.
//! The two ways to print it are text.rs and json.rs; both print the same fields.
use kusikhut::Refusal;

pub enum Value {
    Number(u64),
    Real(f64),
    Bytes(Vec<u8>),
    Word(String),
    Is(bool),
    /// There is none, as of a maker without letters.
    None,
}

/// How much is missing. Where the length byte did not come, nobody knows how much more will be.
#[derive(Clone, Copy, Debug, PartialEq, Eq)]
pub enum Missing {
    Exactly(u64),
    AtLeast(u64),
}

#[derive(Default)]
pub struct Fields(pub Vec<(&'static str, Value)>);

/// What stands below an answer.
pub enum Below {
    /// Things of one kind, under the list's name.
    List(&'static str, Vec<Fields>),
    /// One thing.
    Part(&'static str, Fields),
    /// The answer to a call that was made with the result of this one.
    Reply(&'static str, Reply),
}

pub struct Reply {
    pub number: u8,
    pub name: &'static str,
    pub fields: Fields,
    pub below: Vec<Below>,
    /// A drawing, which is printed in place of all this as text, and beside it as JSON.
    pub drawing: Option<String>,
}

impl Fields {
    pub fn value(mut self, name: &'static str, value: Value) -> Fields {
        self.0.push((name, value));
        self
    }

    pub fn number(self, name: &'static str, number: u64) -> Fields {
        self.value(name, Value::Number(number))
    }

    pub fn missing_bytes(self, missing: Missing) -> Fields {
        match missing {
            Missing::Exactly(bytes) => self.number("missing-bytes", bytes),
            Missing::AtLeast(bytes) => self.number("missing-bytes-at-least", bytes),
        }
    }

    pub fn missing_chips(self, missing: Missing) -> Fields {
        match missing {
            Missing::Exactly(chips) => self.number("missing-chips", chips),
            Missing::AtLeast(chips) => self.number("missing-chips-at-least", chips),
        }
    }

    pub fn bytes(self, name: &'static str, bytes: &[u8]) -> Fields {
        self.value(name, Value::Bytes(bytes.to_vec()))
    }

    pub fn word(self, name: &'static str, word: impl Into<String>) -> Fields {
        self.value(name, Value::Word(word.into()))
    }

    pub fn is(self, name: &'static str, holds: bool) -> Fields {
        self.value(name, Value::Is(holds))
    }
}

impl Reply {
    pub fn accepted() -> Reply {
        Reply { number: 0, name: "accepted", fields: Fields::default(), below: Vec::new(), drawing: None }
    }

    pub fn refused(refusal: Refusal) -> Reply {
        let reply = Reply { number: refusal.number(), name: refusal.name(), ..Reply::accepted() };
        match refusal.value() {
            Some((name, value)) => reply.with(|f| f.number(name, value)),
            None => reply,
        }
    }

    /// What was accepted, told by `tell`, or the refusal.
    pub fn of<T>(answer: Result<T, Refusal>, tell: impl FnOnce(Fields, T) -> Fields) -> Reply {
        match answer {
            Ok(value) => Reply::accepted().with(|f| tell(f, value)),
            Err(refusal) => Reply::refused(refusal),
        }
    }

    /// With more fields.
    pub fn with(mut self, tell: impl FnOnce(Fields) -> Fields) -> Reply {
        self.fields = tell(self.fields);
        self
    }

    /// With more fields if it has this number.
    pub fn if_number(self, number: u8, tell: impl FnOnce(Fields) -> Fields) -> Reply {
        if self.number == number {
            self.with(tell)
        } else {
            self
        }
    }

    pub fn drawn(mut self, drawing: String) -> Reply {
        self.drawing = Some(drawing);
        self
    }

    pub fn below(mut self, below: Below) -> Reply {
        self.below.push(below);
        self
    }

    pub fn list<T>(self, name: &'static str, things: &[T], tell: impl Fn(&T) -> Fields) -> Reply {
        self.below(Below::List(name, things.iter().map(tell).collect()))
    }

    /// Accepted, and so is every call that was made with the result.
    pub fn all_accepted(&self) -> bool {
        self.number == 0
            && self.below.iter().all(|below| !matches!(below, Below::Reply(_, reply) if !reply.all_accepted()))
    }
}
