//! An answer as one JSON object on a line, for programs: the number of the line that it answers, `answer` and `name`, then
//! the same fields as in text; numbers as numbers, bytes as hex strings. What stands below is a list or an object of its own.
use crate::fault::Fault;
use crate::notation::hex;
use crate::reply::{Below, Fields, Reply, Value};
use std::io::{self, Write};

pub fn reply(reply: &Reply, line: u64, out: &mut impl Write) -> io::Result<()> {
    write!(out, "{{\"line\":{line},")?;
    members(reply, out)?;
    if let Some(drawing) = &reply.drawing {
        out.write_all(b",\"picture\":")?;
        string(drawing, out)?;
    }
    out.write_all(b"}\n")
}

fn members(reply: &Reply, out: &mut impl Write) -> io::Result<()> {
    write!(out, "\"answer\":{},\"name\":\"{}\"", reply.number, reply.name)?;
    for (name, value) in &reply.fields.0 {
        write!(out, ",\"{name}\":")?;
        self::value(value, out)?;
    }
    for below in &reply.below {
        match below {
            Below::List(name, rows) => {
                write!(out, ",\"{name}\":[")?;
                for (before, row) in rows.iter().enumerate() {
                    out.write_all(if before > 0 { b"," } else { b"" })?;
                    object(row, out)?;
                }
                out.write_all(b"]")?;
            }
            Below::Part(name, row) => {
                write!(out, ",\"{name}\":")?;
                object(row, out)?;
            }
            Below::Reply(name, inner) => {
                write!(out, ",\"{name}\":{{")?;
                members(inner, out)?;
                out.write_all(b"}")?;
            }
        }
    }
    Ok(())
}

fn object(fields: &Fields, out: &mut impl Write) -> io::Result<()> {
    out.write_all(b"{")?;
    for (before, (name, value)) in fields.0.iter().enumerate() {
        write!(out, "{}\"{name}\":", if before > 0 { "," } else { "" })?;
        self::value(value, out)?;
    }
    out.write_all(b"}")
}

fn value(value: &Value, out: &mut impl Write) -> io::Result<()> {
    match value {
        Value::Number(number) => write!(out, "{number}"),
        Value::Real(number) => write!(out, "{number}"),
        Value::Bytes(bytes) => write!(out, "\"{}\"", hex(bytes)),
        Value::Word(word) => string(word, out),
        Value::Is(holds) => write!(out, "{holds}"),
        Value::None => out.write_all(b"null"),
    }
}

/// A text that is no answer, such as help.
pub fn text(name: &str, text: &str, line: u64, out: &mut impl Write) -> io::Result<()> {
    write!(out, "{{\"line\":{line},\"{name}\":")?;
    string(text, out)?;
    out.write_all(b"}\n")
}

pub fn fault(fault: &Fault, line: u64, out: &mut impl Write) -> io::Result<()> {
    write!(out, "{{\"line\":{line},\"error\":")?;
    string(&fault.why, out)?;
    if let Some(word) = fault.word {
        write!(out, ",\"word\":{word}")?;
    }
    if let Some(usage) = &fault.usage {
        out.write_all(b",\"usage\":")?;
        string(usage, out)?;
    }
    out.write_all(b"}\n")
}

fn string(text: &str, out: &mut impl Write) -> io::Result<()> {
    out.write_all(b"\"")?;
    for c in text.chars() {
        match c {
            '"' => out.write_all(b"\\\"")?,
            '\\' => out.write_all(b"\\\\")?,
            '\n' => out.write_all(b"\\n")?,
            c if c < ' ' || c == '\u{7F}' => write!(out, "\\u{:04X}", c as u32)?,
            c => write!(out, "{c}")?,
        }
    }
    out.write_all(b"\"")
}

#[cfg(test)]
mod tests {
    use super::*;

    /// A part of an inner answer is the inner object's, also where there are no letters.
    #[test]
    fn inner_answers_have_their_own_below() {
        let part = Fields::default().bytes("sender", &[0, 0x80]).value("letters", Value::None).bytes("id", &[0x12]);
        let inner = Reply::accepted().below(Below::Part("from", part));
        let mut out = Vec::new();
        reply(&Reply::accepted().below(Below::Reply("reading", inner)), 1, &mut out).expect("memory takes all");
        let accepted = r#""answer":0,"name":"accepted""#;
        let from = r#"{"sender":"0080","letters":null,"id":"12"}"#;
        let object = format!("{{\"line\":1,{accepted},\"reading\":{{{accepted},\"from\":{from}}}}}\n");
        assert_eq!(String::from_utf8(out).expect("it is text"), object);
    }

    #[test]
    fn strings_are_escaped() {
        let mut out = Vec::new();
        string("a\"b\\c\nd\u{1}é", &mut out).expect("memory takes all");
        assert_eq!(String::from_utf8(out).expect("it is text"), "\"a\\\"b\\\\c\\nd\\u0001é\"");
    }
}
