//! An answer as lines for people: number, name, `field=value` in a fixed order; set in below it, a line for each thing,
//! also below an answer that stands below another. A drawing is printed alone, so that it can be sent to a file.
use crate::fault::Fault;
use crate::notation::shown;
use crate::reply::{Below, Fields, Reply, Value};
use std::io::{self, Write};

/// What begins each line of an answer: nothing, or the number of the line that it answers.
#[derive(Clone, Copy)]
pub struct Lead(pub Option<u64>);

impl Lead {
    fn write(self, out: &mut impl Write) -> io::Result<()> {
        self.0.map_or(Ok(()), |number| write!(out, "{number}: "))
    }
}

pub fn reply(reply: &Reply, lead: Lead, out: &mut impl Write) -> io::Result<()> {
    if let Some(drawing) = &reply.drawing {
        return words(drawing, lead, out);
    }
    lead.write(out)?;
    head(reply, out)?;
    below(reply, 2, lead, out)
}

/// Number, name and fields, to the end of the line.
fn head(reply: &Reply, out: &mut impl Write) -> io::Result<()> {
    write!(out, "{} {}", reply.number, reply.name)?;
    fields(&reply.fields, out)?;
    out.write_all(b"\n")
}

/// What stands below an answer, set in by so many spaces; what stands below an inner answer, by two more.
fn below(reply: &Reply, set_in: usize, lead: Lead, out: &mut impl Write) -> io::Result<()> {
    for thing in &reply.below {
        match thing {
            Below::List(_, rows) => rows.iter().try_for_each(|row| self::row(row, set_in, lead, out))?,
            Below::Part(_, row) => self::row(row, set_in, lead, out)?,
            Below::Reply(name, inner) => {
                lead.write(out)?;
                write!(out, "{:set_in$}{name}=", "")?;
                head(inner, out)?;
                below(inner, set_in + 2, lead, out)?;
            }
        }
    }
    Ok(())
}

fn row(row: &Fields, set_in: usize, lead: Lead, out: &mut impl Write) -> io::Result<()> {
    lead.write(out)?;
    // A space stands before each field.
    write!(out, "{:1$}", "", set_in - 1)?;
    fields(row, out)?;
    out.write_all(b"\n")
}

fn fields(fields: &Fields, out: &mut impl Write) -> io::Result<()> {
    fields.0.iter().try_for_each(|(name, value)| match value {
        Value::Number(number) => write!(out, " {name}={number}"),
        Value::Real(number) => write!(out, " {name}={number}"),
        Value::Bytes(bytes) => write!(out, " {name}={}", shown(bytes)),
        Value::Word(word) => write!(out, " {name}={word}"),
        Value::Is(holds) => write!(out, " {name}={}", if *holds { "yes" } else { "no" }),
        Value::None => write!(out, " {name}=none"),
    })
}

/// A text, line by line: help, or a drawing.
pub fn words(words: &str, lead: Lead, out: &mut impl Write) -> io::Result<()> {
    words.split_inclusive('\n').try_for_each(|line| {
        lead.write(out)?;
        out.write_all(line.as_bytes())
    })
}

pub fn fault(fault: &Fault, lead: Lead, out: &mut impl Write) -> io::Result<()> {
    lead.write(out)?;
    writeln!(out, "error {fault}")
}

pub fn comment(comment: &str, lead: Lead, out: &mut impl Write) -> io::Result<()> {
    lead.write(out)?;
    writeln!(out, "{comment}")
}

#[cfg(test)]
mod tests {
    use super::*;

    fn told(reply: &Reply, lead: Lead) -> String {
        let mut told = Vec::new();
        self::reply(reply, lead, &mut told).expect("memory takes all");
        String::from_utf8(told).expect("it is text")
    }

    /// What stands below an inner answer is set in by two more than that answer, and the next of the outer one is not.
    #[test]
    fn inner_answers_have_their_own_below() {
        let place = |number| Fields::default().number("place", number);
        let inner = Reply::accepted().with(|f| f.number("n", 15)).below(Below::Part("from", place(1)));
        let innermost = Reply::accepted().list("places", &[2, 3], |&number| place(number));
        let outer = Reply::accepted()
            .below(Below::Part("before", place(0)))
            .below(Below::Reply("reading", inner.below(Below::Reply("again", innermost))))
            .below(Below::Part("behind", place(4)));
        let lines = [
            "0 accepted",
            "  place=0",
            "  reading=0 accepted n=15",
            "    place=1",
            "    again=0 accepted",
            "      place=2",
            "      place=3",
            "  place=4",
        ];
        assert_eq!(told(&outer, Lead(None)), lines.map(|line| format!("{line}\n")).concat());
        assert_eq!(told(&outer, Lead(Some(7))), lines.map(|line| format!("7: {line}\n")).concat());
    }
}
