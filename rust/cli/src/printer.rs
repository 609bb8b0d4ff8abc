//! Where answers go: as text or as JSON, each with the number of the line that it answers where that is wanted.
use crate::fault::Fault;
use crate::flags::Flags;
use crate::reply::Reply;
use crate::text::Lead;
use crate::{json, text};
use std::io::{self, Write};

/// What a line comes to.
pub enum Outcome {
    Reply(Reply),
    /// A text that is no answer, and what it is.
    Text(&'static str, String),
    Fault(Fault),
}

/// What a program that calls this one learns without reading: accepted, refused, or no answer at all.
#[derive(Clone, Copy, Debug, PartialEq, Eq)]
pub enum Status {
    Accepted = 0,
    Refused = 1,
    NoAnswer = 2,
}

impl Outcome {
    pub fn of(answer: Result<Reply, Fault>) -> Outcome {
        answer.map_or_else(Outcome::Fault, Outcome::Reply)
    }

    pub fn status(&self) -> Status {
        match self {
            Outcome::Reply(reply) if !reply.all_accepted() => Status::Refused,
            Outcome::Reply(_) | Outcome::Text(..) => Status::Accepted,
            Outcome::Fault(_) => Status::NoAnswer,
        }
    }
}

pub struct Printer<W: Write> {
    pub out: W,
    pub flags: Flags,
}

impl<W: Write> Printer<W> {
    pub fn print(&mut self, outcome: &Outcome, line: u64) -> io::Result<()> {
        match outcome {
            Outcome::Reply(reply) if self.flags.json => json::reply(reply, line, &mut self.out),
            Outcome::Reply(reply) => text::reply(reply, self.lead(line), &mut self.out),
            Outcome::Text(name, words) if self.flags.json => json::text(name, words, line, &mut self.out),
            Outcome::Text(_, words) => text::words(words, self.lead(line), &mut self.out),
            Outcome::Fault(fault) if self.flags.json => json::fault(fault, line, &mut self.out),
            Outcome::Fault(fault) => text::fault(fault, self.lead(line), &mut self.out),
        }
    }

    /// A line of nothing but a comment is passed on, so that a file of commands can say what it shows. JSON has no
    /// comments.
    pub fn comment(&mut self, comment: &str, line: u64) -> io::Result<()> {
        if self.flags.json {
            Ok(())
        } else {
            text::comment(comment, self.lead(line), &mut self.out)
        }
    }

    fn lead(&self, line: u64) -> Lead {
        Lead(self.flags.numbered.then_some(line))
    }
}
