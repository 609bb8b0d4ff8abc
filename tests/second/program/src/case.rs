//! One case of the comparison: an operation with its arguments. A case is one
//! line of text, `operation name=hex name=hex ...`, and can be read back from
//! it; so a person can run a difference again.

use std::fmt;

use crate::answer::Answer;
use crate::chips::Code;
use crate::filter::Entries;
use crate::frames::Format;
use crate::headers::{Header, HeaderKind};
use crate::implementation::{Implementation, StoreCalls};
use crate::store::Address;
use crate::sync::Kind;

/// The operations that are compared.
#[derive(Clone, Copy, Debug, PartialEq, Eq, PartialOrd, Ord)]
pub enum Operation {
    Decode,
    Encode,
    Word,
    Search,
    Check,
    CheckUpdate,
    FrameRead,
    FrameWrite,
    FrameChange,
    FrameSize,
    CorrectionWrite,
    CorrectionCheckBytes,
    CorrectionHeader,
    TakeProposal,
    ProposeOne,
    Propose,
    Receive,
    ReceiveManchester,
    Send,
    HeaderRead,
    HeaderWrite,
    Access,
    Maker,
    Filter,
    ChannelRow,
    ChannelCentre,
    BandLine,
    StoreEmpty,
    StoreAdd,
    StoreHear,
    StoreIssue,
    StoreRestore,
    StoreWrite,
    StoreLookUp,
    StoreAllowance,
    StoreSetAllowance,
    Words,
}

/// What an argument may be.
#[derive(Clone, Copy, Debug, PartialEq, Eq)]
pub enum Shape {
    /// A number up to this one.
    UpTo(u64),
    /// Bytes, as many as one likes.
    Bytes,
    /// Exactly this many bytes.
    Exactly(usize),
}

const CODE: Shape = Shape::UpTo(2);
const FORMAT: Shape = Shape::UpTo(1);
const KIND: Shape = Shape::UpTo(3);
const BYTE: Shape = Shape::UpTo(u8::MAX as u64);
const U16: Shape = Shape::UpTo(u16::MAX as u64);
const U32: Shape = Shape::UpTo(u32::MAX as u64);
const SIZE: Shape = Shape::UpTo(usize::MAX as u64);
const BYTES: Shape = Shape::Bytes;
const METER: Shape = Shape::Exactly(8);

impl Operation {
    /// The calls: what the library exports.
    pub const CALLS: [Operation; 36] = [
        Operation::Decode,
        Operation::Encode,
        Operation::Word,
        Operation::Search,
        Operation::Check,
        Operation::CheckUpdate,
        Operation::FrameRead,
        Operation::FrameWrite,
        Operation::FrameChange,
        Operation::FrameSize,
        Operation::CorrectionWrite,
        Operation::CorrectionCheckBytes,
        Operation::CorrectionHeader,
        Operation::TakeProposal,
        Operation::ProposeOne,
        Operation::Propose,
        Operation::Receive,
        Operation::ReceiveManchester,
        Operation::Send,
        Operation::HeaderRead,
        Operation::HeaderWrite,
        Operation::Access,
        Operation::Maker,
        Operation::Filter,
        Operation::ChannelRow,
        Operation::ChannelCentre,
        Operation::BandLine,
        Operation::StoreEmpty,
        Operation::StoreAdd,
        Operation::StoreHear,
        Operation::StoreIssue,
        Operation::StoreRestore,
        Operation::StoreWrite,
        Operation::StoreLookUp,
        Operation::StoreAllowance,
        Operation::StoreSetAllowance,
    ];

    /// The calls, and the program that reads words with a chip reader.
    pub fn all() -> impl Iterator<Item = Operation> {
        Operation::CALLS.into_iter().chain([Operation::Words])
    }

    /// It is one of the settings store, and is lent or shown the store's memory.
    pub fn of_store(self) -> bool {
        self.arguments()[0] == ("store", BYTES)
    }

    /// The implementation has this call.
    pub fn is_call_of(self, with: &dyn Implementation) -> bool {
        !self.of_store() || with.store_calls().is_some()
    }

    /// The answer numbers that it can give.
    pub fn numbers(self) -> &'static [u64] {
        match self {
            Operation::Decode => &[0, 1, 4, 6, 10],
            Operation::Encode => &[0, 4],
            Operation::Word => &[0, 1, 6, 10],
            Operation::Search => &[0, 7, 10, 14],
            Operation::Check => &[0],
            Operation::CheckUpdate => &[0, 10],
            Operation::FrameRead => &[0, 1, 2, 3, 4],
            Operation::FrameWrite => &[0, 4, 5],
            Operation::FrameChange => &[0, 1, 2, 3, 9],
            Operation::FrameSize => &[0, 2],
            Operation::CorrectionWrite => &[0, 1, 2, 3, 4, 23],
            Operation::CorrectionCheckBytes => &[0, 4, 23],
            Operation::CorrectionHeader => &[0, 1, 24],
            Operation::TakeProposal => &[0, 1, 2, 23, 25, 26],
            Operation::ProposeOne | Operation::Propose => &[0, 1, 2, 4, 23],
            Operation::Receive => &[0, 1, 2, 3, 4, 6, 7, 8, 10, 14],
            Operation::ReceiveManchester => &[0, 1, 2, 3, 4, 6, 10],
            Operation::Send => &[0, 4, 5],
            Operation::HeaderRead => &[0, 11, 12],
            Operation::HeaderWrite => &[0, 4],
            Operation::Access => &[0],
            Operation::Maker => &[0],
            Operation::Filter => &[0, 5, 10],
            Operation::ChannelRow => &[0],
            Operation::ChannelCentre => &[0, 13],
            Operation::BandLine => &[0, 13],
            Operation::StoreEmpty => &[0, 4],
            Operation::StoreAdd => &[0, 17, 18, 22],
            Operation::StoreHear => &[0, 17, 18, 19],
            Operation::StoreIssue => &[0, 17, 18, 19, 20, 21],
            Operation::StoreRestore => &[0, 17, 18, 22],
            Operation::StoreWrite => &[0, 4, 17, 18],
            Operation::StoreLookUp => &[0, 17, 18, 19],
            Operation::StoreAllowance => &[0, 17, 18],
            Operation::StoreSetAllowance => &[0, 17, 18],
            // The refusals that end its readers; 0 where it names none.
            Operation::Words => &[0, 1, 6, 10],
        }
    }

    pub fn name(self) -> &'static str {
        match self {
            Operation::Decode => "decode",
            Operation::Encode => "encode",
            Operation::Word => "word",
            Operation::Search => "search",
            Operation::Check => "check",
            Operation::CheckUpdate => "check_update",
            Operation::FrameRead => "frame_read",
            Operation::FrameWrite => "frame_write",
            Operation::FrameChange => "frame_change",
            Operation::FrameSize => "frame_size",
            Operation::CorrectionWrite => "correction_write",
            Operation::CorrectionCheckBytes => "correction_check_bytes",
            Operation::CorrectionHeader => "correction_header",
            Operation::TakeProposal => "take_proposal",
            Operation::ProposeOne => "propose_one",
            Operation::Propose => "propose",
            Operation::Receive => "receive",
            Operation::ReceiveManchester => "receive_manchester",
            Operation::Send => "send",
            Operation::HeaderRead => "header_read",
            Operation::HeaderWrite => "header_write",
            Operation::Access => "access",
            Operation::Maker => "maker",
            Operation::Filter => "filter",
            Operation::ChannelRow => "channel_row",
            Operation::ChannelCentre => "channel_centre",
            Operation::BandLine => "band_line",
            Operation::StoreEmpty => "store_empty",
            Operation::StoreAdd => "store_add",
            Operation::StoreHear => "store_hear",
            Operation::StoreIssue => "store_issue",
            Operation::StoreRestore => "store_restore",
            Operation::StoreWrite => "store_write",
            Operation::StoreLookUp => "store_look_up",
            Operation::StoreAllowance => "store_allowance",
            Operation::StoreSetAllowance => "store_set_allowance",
            Operation::Words => "words",
        }
    }

    /// The arguments, in the order of the line of text. Lent memory is an
    /// argument too: what it held before decides what must stay.
    pub fn arguments(self) -> &'static [(&'static str, Shape)] {
        match self {
            Operation::Decode => &[
                ("code", CODE),
                ("chips", BYTES),
                ("start", SIZE),
                ("n", SIZE),
                ("out", BYTES),
            ],
            Operation::Encode => &[("code", CODE), ("bytes", BYTES), ("out", BYTES)],
            Operation::Word => &[("code", CODE), ("chips", BYTES), ("at", SIZE)],
            Operation::Search => &[("chips", BYTES), ("start", SIZE), ("allowance", SIZE)],
            Operation::Check => &[("bytes", BYTES)],
            Operation::CheckUpdate => &[
                ("old_check", U16),
                ("old_byte", BYTE),
                ("new_byte", BYTE),
                ("distance", SIZE),
            ],
            Operation::FrameRead => &[("format", FORMAT), ("bytes", BYTES), ("out", BYTES)],
            Operation::FrameWrite => &[("format", FORMAT), ("content", BYTES), ("out", BYTES)],
            Operation::FrameChange => &[
                ("format", FORMAT),
                ("frame", BYTES),
                ("place", SIZE),
                ("byte", BYTE),
            ],
            Operation::FrameSize => &[("format", FORMAT), ("length", BYTE)],
            Operation::CorrectionWrite => &[("format", FORMAT), ("bytes", BYTES), ("out", BYTES)],
            Operation::CorrectionCheckBytes => &[("word", BYTES), ("out", BYTES)],
            Operation::CorrectionHeader => &[("bytes", BYTES)],
            Operation::TakeProposal => {
                &[("format", FORMAT), ("proposed", BYTES), ("received", BYTES)]
            }
            Operation::ProposeOne | Operation::Propose => {
                &[("format", FORMAT), ("received", BYTES), ("out", BYTES)]
            }
            Operation::Receive => &[
                ("chips", BYTES),
                ("start", SIZE),
                ("allowance", SIZE),
                ("out", BYTES),
            ],
            Operation::ReceiveManchester => &[("chips", BYTES), ("start", SIZE), ("out", BYTES)],
            Operation::Send => &[("kind", KIND), ("content", BYTES), ("out", BYTES)],
            Operation::HeaderRead => &[("body", BYTES)],
            Operation::HeaderWrite => &[
                ("kind", KIND),
                ("cc", BYTE),
                ("acc", BYTE),
                ("m2", U16),
                ("a2", Shape::Exactly(6)),
                ("sn", U32),
                ("payload_crc", Shape::Exactly(2)),
                ("out", BYTES),
            ],
            Operation::Access => &[("cc", BYTE)],
            Operation::Maker => &[("m", U16)],
            Operation::Filter => &[
                ("entries", Shape::Exactly(128)),
                ("count", SIZE),
                ("content", BYTES),
            ],
            Operation::ChannelRow => &[("index", SIZE)],
            Operation::ChannelCentre => &[("index", SIZE), ("channel", SIZE)],
            Operation::BandLine => &[("input", BYTES), ("k", SIZE)],
            Operation::StoreEmpty | Operation::StoreAllowance => &[("store", BYTES)],
            Operation::StoreAdd => &[
                ("store", BYTES),
                ("meter", METER),
                ("mode", BYTE),
                ("format", BYTE),
            ],
            Operation::StoreHear => &[("store", BYTES), ("meter", METER), ("number", U32)],
            Operation::StoreIssue | Operation::StoreLookUp => &[("store", BYTES), ("meter", METER)],
            Operation::StoreRestore => &[("store", BYTES), ("file", BYTES)],
            Operation::StoreWrite => &[("store", BYTES), ("out", BYTES)],
            Operation::StoreSetAllowance => &[("store", BYTES), ("allowance", U32)],
            Operation::Words => &[("input", BYTES)],
        }
    }

    /// The argument that the call may write to, if there is one. The memory of a
    /// store is only looked at by the calls that have it as `const` in C.
    fn lent(self) -> Option<&'static str> {
        match self {
            Operation::FrameChange => Some("frame"),
            Operation::StoreEmpty
            | Operation::StoreAdd
            | Operation::StoreHear
            | Operation::StoreIssue
            | Operation::StoreRestore
            | Operation::StoreSetAllowance => Some("store"),
            _ => {
                let mut names = self.arguments().iter().map(|(name, _)| *name);
                names.find(|&name| name == "out")
            }
        }
    }
}

/// An argument of a case.
#[derive(Clone, Debug, PartialEq, Eq)]
pub enum Argument {
    Number(u64),
    Bytes(Vec<u8>),
}

impl From<usize> for Argument {
    fn from(number: usize) -> Argument {
        Argument::Number(number as u64)
    }
}

impl From<Vec<u8>> for Argument {
    fn from(bytes: Vec<u8>) -> Argument {
        Argument::Bytes(bytes)
    }
}

impl Argument {
    fn fits(&self, shape: Shape) -> bool {
        match (self, shape) {
            (Argument::Number(number), Shape::UpTo(largest)) => *number <= largest,
            (Argument::Bytes(_), Shape::Bytes) => true,
            (Argument::Bytes(bytes), Shape::Exactly(length)) => bytes.len() == length,
            _ => false,
        }
    }

    fn from_text(text: &str, shape: Shape) -> Option<Argument> {
        let argument = match shape {
            Shape::UpTo(_) => Argument::Number(number_from_hex(text)?),
            Shape::Bytes | Shape::Exactly(_) => Argument::Bytes(bytes_from_hex(text)?),
        };
        Some(argument).filter(|argument| argument.fits(shape))
    }
}

impl fmt::Display for Argument {
    fn fmt(&self, f: &mut fmt::Formatter) -> fmt::Result {
        match self {
            Argument::Number(number) => write!(f, "{number:x}"),
            Argument::Bytes(bytes) => write!(f, "{}", hex(bytes)),
        }
    }
}

/// Bytes as hexadecimal digits.
pub fn hex(bytes: &[u8]) -> String {
    bytes.iter().map(|byte| format!("{byte:02x}")).collect()
}

fn number_from_hex(text: &str) -> Option<u64> {
    // The library's reader would take a sign, which is no digit.
    let digits = text.chars().all(|digit| digit.is_ascii_hexdigit());
    u64::from_str_radix(text, 16).ok().filter(|_| digits)
}

fn bytes_from_hex(text: &str) -> Option<Vec<u8>> {
    if !text.len().is_multiple_of(2) || !text.is_ascii() {
        return None;
    }
    let mut bytes = Vec::new();
    for place in (0..text.len()).step_by(2) {
        bytes.push(number_from_hex(&text[place..place + 2])? as u8);
    }
    Some(bytes)
}

/// An operation with its arguments, in the order that the operation names.
#[derive(Clone, Debug, PartialEq, Eq)]
pub struct Case {
    pub operation: Operation,
    arguments: Vec<Argument>,
}

/// What a call left behind.
#[derive(Clone, Debug, PartialEq, Eq)]
pub struct Outcome {
    pub answer: Answer,
    /// Every lent byte after the call; for `words` the text that was printed.
    pub lent: Vec<u8>,
}

impl Case {
    /// A case. The arguments must be those that the operation names: anything
    /// else is a mistake in a generator, and stops the program.
    pub fn new(operation: Operation, arguments: Vec<Argument>) -> Case {
        let shapes = operation.arguments();
        assert_eq!(
            arguments.len(),
            shapes.len(),
            "{operation:?}: number of arguments"
        );
        for (argument, (name, shape)) in arguments.iter().zip(shapes) {
            assert!(argument.fits(*shape), "{operation:?}: {name}");
        }
        Case {
            operation,
            arguments,
        }
    }

    /// A case from its line of text.
    pub fn from_text(line: &str) -> Result<Case, String> {
        let mut parts = line.split_whitespace();
        let name = parts.next().ok_or("empty line")?;
        let operation = Operation::all()
            .find(|operation| operation.name() == name)
            .ok_or(format!("no operation {name}"))?;
        let mut arguments = Vec::new();
        for (name, shape) in operation.arguments() {
            let text = parts
                .next()
                .and_then(|part| part.strip_prefix(name))
                .and_then(|part| part.strip_prefix('='))
                .ok_or(format!("{name}= expected"))?;
            let argument = Argument::from_text(text, *shape).ok_or(format!("{name}: bad value"))?;
            arguments.push(argument);
        }
        match parts.next() {
            Some(part) => Err(format!("{part}: not expected")),
            None => Ok(Case {
                operation,
                arguments,
            }),
        }
    }

    fn argument(&self, name: &str) -> &Argument {
        let place = self
            .operation
            .arguments()
            .iter()
            .position(|(known, _)| *known == name)
            .unwrap_or_else(|| panic!("{:?} has no {name}", self.operation));
        &self.arguments[place]
    }

    /// A number among the arguments.
    pub fn number(&self, name: &str) -> u64 {
        match self.argument(name) {
            Argument::Number(number) => *number,
            Argument::Bytes(_) => panic!("{name} is no number"),
        }
    }

    /// Bytes among the arguments.
    pub fn bytes(&self, name: &str) -> &[u8] {
        match self.argument(name) {
            Argument::Bytes(bytes) => bytes,
            Argument::Number(_) => panic!("{name} is a number"),
        }
    }

    // The shapes keep every number within its type, so nothing is cut off here.

    fn size(&self, name: &str) -> usize {
        self.number(name) as usize
    }

    fn byte(&self, name: &str) -> u8 {
        self.number(name) as u8
    }

    fn code(&self) -> Code {
        Code::ALL[self.size("code")]
    }

    fn format(&self) -> Format {
        Format::ALL[self.size("format")]
    }

    fn kind(&self) -> Kind {
        Kind::ALL[self.size("kind")]
    }

    fn header(&self) -> Header {
        let mut header = Header {
            kind: HeaderKind::ALL[self.size("kind")],
            cc: self.byte("cc"),
            acc: self.byte("acc"),
            m2: self.number("m2") as u16,
            a2: [0; 6],
            sn: self.number("sn") as u32,
            payload_crc: [0; 2],
        };
        header.a2.copy_from_slice(self.bytes("a2"));
        header
            .payload_crc
            .copy_from_slice(self.bytes("payload_crc"));
        header
    }

    fn entries(&self) -> Entries {
        let mut entries = [[0; 8]; 16];
        for (entry, bytes) in entries.iter_mut().zip(self.bytes("entries").chunks(8)) {
            entry.copy_from_slice(bytes);
        }
        entries
    }

    /// The meter that a call of the settings store is about.
    pub fn meter(&self) -> Address {
        let mut meter = [0; 8];
        meter.copy_from_slice(self.bytes("meter"));
        meter
    }

    /// The memory that the case lends, as it is before the call.
    fn lent(&self) -> Vec<u8> {
        match self.operation.lent() {
            Some(name) => self.bytes(name).to_vec(),
            None => Vec::new(),
        }
    }

    /// Runs the case with an implementation.
    pub fn run(&self, with: &dyn Implementation) -> Outcome {
        let mut lent = self.lent();
        let out = &mut lent[..];
        let answer = match self.operation {
            Operation::Decode => with.decode(
                self.code(),
                self.bytes("chips"),
                self.size("start"),
                self.size("n"),
                out,
            ),
            Operation::Encode => with.encode(self.code(), self.bytes("bytes"), out),
            Operation::Word => with.word(self.code(), self.bytes("chips"), self.size("at")),
            Operation::Search => with.search(
                self.bytes("chips"),
                self.size("start"),
                self.size("allowance"),
            ),
            Operation::Check => with.check(self.bytes("bytes")),
            Operation::CheckUpdate => with.check_update(
                self.number("old_check") as u16,
                self.byte("old_byte"),
                self.byte("new_byte"),
                self.size("distance"),
            ),
            Operation::FrameRead => with.frame_read(self.format(), self.bytes("bytes"), out),
            Operation::FrameWrite => with.frame_write(self.format(), self.bytes("content"), out),
            Operation::FrameChange => {
                with.frame_change(self.format(), out, self.size("place"), self.byte("byte"))
            }
            Operation::FrameSize => with.frame_size(self.format(), self.byte("length")),
            Operation::CorrectionWrite => {
                with.correction_calls().correction_write(self.format(), self.bytes("bytes"), out)
            }
            Operation::CorrectionCheckBytes => {
                with.correction_calls().correction_check_bytes(self.bytes("word"), out)
            }
            Operation::CorrectionHeader => with.correction_calls().correction_header(self.bytes("bytes")),
            Operation::TakeProposal => {
                let (proposed, received) = (self.bytes("proposed"), self.bytes("received"));
                with.mending_calls().take_proposal(self.format(), proposed, received)
            }
            Operation::ProposeOne => {
                with.mending_calls().propose_one(self.format(), self.bytes("received"), out)
            }
            Operation::Propose => {
                with.mending_calls().propose(self.format(), self.bytes("received"), out)
            }
            Operation::Receive => with.receive(
                self.bytes("chips"),
                self.size("start"),
                self.size("allowance"),
                out,
            ),
            Operation::ReceiveManchester => {
                with.receive_manchester(self.bytes("chips"), self.size("start"), out)
            }
            Operation::Send => with.send(self.kind(), self.bytes("content"), out),
            Operation::HeaderRead => with.header_read(self.bytes("body")),
            Operation::HeaderWrite => with.header_write(&self.header(), out),
            Operation::Access => with.access(self.byte("cc")),
            Operation::Maker => with.maker(self.number("m") as u16),
            Operation::Filter => {
                with.filter(&self.entries(), self.size("count"), self.bytes("content"))
            }
            Operation::ChannelRow => with.channel_row(self.size("index")),
            Operation::ChannelCentre => {
                with.channel_centre(self.size("index"), self.size("channel"))
            }
            Operation::BandLine => with.band_line(self.bytes("input"), self.size("k")),
            Operation::StoreEmpty => store(with).store_empty(out),
            Operation::StoreAdd => {
                let (mode, format) = (self.byte("mode"), self.byte("format"));
                store(with).store_add(out, self.meter(), mode, format)
            }
            Operation::StoreHear => {
                store(with).store_hear(out, self.meter(), self.number("number") as u32)
            }
            Operation::StoreIssue => store(with).store_issue(out, self.meter()),
            Operation::StoreRestore => store(with).store_restore(out, self.bytes("file")),
            Operation::StoreWrite => store(with).store_write(self.bytes("store"), out),
            Operation::StoreLookUp => store(with).store_look_up(self.bytes("store"), self.meter()),
            Operation::StoreAllowance => store(with).store_allowance(self.bytes("store")),
            Operation::StoreSetAllowance => {
                store(with).store_set_allowance(out, self.number("allowance") as u32)
            }
            Operation::Words => {
                lent = with.words(self.bytes("input"));
                Answer {
                    number: last_number(&lent),
                    row: Vec::new(),
                }
            }
        };
        Outcome { answer, lent }
    }
}

/// The calls of the settings store. Whoever has none is not asked (`is_call_of`).
fn store(with: &dyn Implementation) -> &dyn StoreCalls {
    with.store_calls().expect("it takes memory for a store")
}

/// The answer number that ends a text of `words`: the first one of its last
/// line. A text without one counts as 0.
fn last_number(text: &[u8]) -> u64 {
    let text = String::from_utf8_lossy(text);
    let first = text.lines().last().and_then(|line| line.split(' ').next());
    first.and_then(|word| word.parse().ok()).unwrap_or(0)
}

impl fmt::Display for Case {
    fn fmt(&self, f: &mut fmt::Formatter) -> fmt::Result {
        write!(f, "{}", self.operation.name())?;
        for (argument, (name, _)) in self.arguments.iter().zip(self.operation.arguments()) {
            write!(f, " {name}={argument}")?;
        }
        Ok(())
    }
}

impl fmt::Display for Outcome {
    fn fmt(&self, f: &mut fmt::Formatter) -> fmt::Result {
        write!(f, "number={} row={:?}", self.answer.number, self.answer.row)?;
        write!(f, " lent={}", hex(&self.lent))
    }
}
