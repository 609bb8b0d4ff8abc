//! Frames as chips: receive and send.
use super::address::with_sender;
use super::frame::{content_length, MOST_CONTENT};
use super::{with_chips, Command};
use crate::anatomy::OnAir;
use crate::args::{Args, Lent};
use crate::fault::Fault;
use crate::numbers;
use crate::reply::{Fields, Reply};
use kusikhut::{Code, Format, Kind, Received, Refusal};

pub const COMMANDS: &[Command] = &[
    Command {
        name: "receive",
        usage: "CHIPS [start=0] [allowance=NUMBER] [room=255] [fill=00] [show=lent]",
        does: "search a mode T or C frame in the chips and read it",
        more: concat!(
            "The search begins at chip start= and tries all places behind it, or allowance= of them. kind= says mode \
             and format, place= where the sync word stands, size= how many bytes the frame has; content= is what the \
             sender says, n= bytes without length byte and checks. ",
            of_sender!()
        ),
        example: "receive 543D5A971C9B25B44EC65A2DC34E58D59371C7134EC5A334B70B699B133726B1",
        run: receive,
    },
    Command {
        name: "manchester",
        usage: "CHIPS [start=0] [room=255] [fill=00] [show=lent]",
        does: "read the Manchester frame that starts at a chip",
        more: concat!("As in mode S, whose sync word is not looked for: start= names the chip. ", of_sender!()),
        example: "manchester AA559A9A6656AA5A956A9996A59AA9A6AAA9AA959A9A9A95956AAA65A9A59AA596996A95A9569659",
        run: manchester,
    },
    Command {
        name: "send",
        usage: "KIND CONTENT [room=600] [fill=00] [show=lent]",
        does: "write a content as chips",
        more: "KIND is T-A, C-A, C-B or Manchester-A: the mode or line code, and the format.",
        example: "send T-A 44AE0C785634120107780B13436587",
        run: send,
    },
];

/// Room for every frame in chips: 290 bytes in Manchester are 580.
pub const MOST_SENT: usize = 600;

pub const KINDS: [(&str, Kind); 4] =
    [("T-A", Kind::TWithA), ("C-A", Kind::CWithA), ("C-B", Kind::CWithB), ("Manchester-A", Kind::ManchesterWithA)];

pub fn kind_name(kind: Kind) -> &'static str {
    KINDS.iter().find(|&&(_, k)| k == kind).map_or("", |&(name, _)| name)
}

pub fn format_of(kind: Kind) -> Format {
    match kind {
        Kind::CWithB => Format::B,
        Kind::TWithA | Kind::CWithA | Kind::ManchesterWithA => Format::A,
    }
}

pub fn code_of(kind: Kind) -> Code {
    match kind {
        Kind::TWithA => Code::ThreeOfSix,
        Kind::CWithA | Kind::CWithB => Code::Nrz,
        Kind::ManchesterWithA => Code::Manchester,
    }
}

/// A reception that is asked for: the chips, and where in them.
pub struct Asked {
    chips: Vec<u8>,
    start: usize,
    /// How many places may be searched; without a search the frame begins at the start.
    allowance: Option<usize>,
    lent: Lent,
}

impl Asked {
    pub fn with_search(mut a: Args) -> Result<Asked, Fault> {
        let chips = a.last_bytes("CHIPS")?;
        let (start, allowance) = (a.option_number("start", 0)?, a.option_number("allowance", usize::MAX)?);
        let lent = a.lent(MOST_CONTENT)?;
        a.end()?;
        Ok(Asked { chips, start, allowance: Some(allowance), lent })
    }

    pub fn at_named_chip(mut a: Args) -> Result<Asked, Fault> {
        let chips = a.last_bytes("CHIPS")?;
        let start = a.option_number("start", 0)?;
        let lent = a.lent(MOST_CONTENT)?;
        a.end()?;
        Ok(Asked { chips, start, allowance: None, lent })
    }

    fn call(&self, out: &mut [u8]) -> Result<Received, Refusal> {
        match self.allowance {
            Some(allowance) => kusikhut::receive(&self.chips, self.start, allowance, out),
            None => kusikhut::receive_manchester(&self.chips, self.start, out),
        }
    }

    /// What stands where in the chips, also if they are refused.
    pub fn on_air(&self) -> OnAir<'_> {
        match self.allowance {
            Some(allowance) => OnAir::searched(&self.chips, self.start, allowance),
            None => OnAir::named(&self.chips, self.start),
        }
    }

    /// What receiving answers, with the frame's sender below. Of chips that end too early it is said how many are
    /// missing, of a length byte that is not allowed which it is, and where the room was too small, how much is needed,
    /// by the same call with enough.
    pub fn answer(&mut self) -> Reply {
        let mut out = std::mem::take(&mut self.lent.bytes);
        let answer = self.call(&mut out);
        self.lent.bytes = out;
        let reply = Reply::of(answer, |f, got| self.lent.result(received(f, got), "content", got.n));
        let needs = || self.call(&mut [0; MOST_CONTENT]).expect("this is room enough").n;
        let reply = reply.if_number(numbers::NO_ROOM, |f| f.number("room", self.lent.room()).number("needs", needs()));
        let reply = reply.if_number(numbers::TOO_SHORT, |f| f.missing_chips(self.on_air().missing()));
        let reply = reply.if_number(numbers::LENGTH_NOT_ALLOWED, |f| {
            f.number("l", self.on_air().length_byte().map_or(0, u64::from))
        });
        let reply = with_sender(with_chips(reply, &self.chips, self.start), &self.lent.bytes);
        reply.with(|f| self.lent.all(f))
    }
}

fn receive(a: Args) -> Result<Reply, Fault> {
    Ok(Asked::with_search(a)?.answer())
}

fn manchester(a: Args) -> Result<Reply, Fault> {
    Ok(Asked::at_named_chip(a)?.answer())
}

fn received(fields: Fields, got: Received) -> Fields {
    let fields = fields.word("kind", kind_name(got.kind)).number("place", got.place).number("tried", got.tried);
    fields.number("size", got.size).number("n", got.n)
}

fn send(mut a: Args) -> Result<Reply, Fault> {
    let kind = a.choice("KIND", &KINDS)?;
    let content = a.last_bytes("CONTENT")?;
    let mut lent = a.lent(MOST_SENT)?;
    a.end()?;
    let reply =
        Reply::of(kind.send(&content, &mut lent.bytes), |f, size| lent.result(f.number("size", size), "chips", size));
    let needs = || kind.send(&content, &mut [0; MOST_SENT]).expect("this is room enough");
    let reply = reply.if_number(numbers::NO_ROOM, |f| f.number("room", lent.room()).number("needs", needs()));
    Ok(content_length(reply, format_of(kind), &content).with(|f| lent.all(f)))
}
