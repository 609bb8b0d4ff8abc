//! Extended link headers, and the access that CC announces.
use super::address::{maker, printed};
use super::Command;
use crate::args::Args;
use crate::fault::Fault;
use crate::numbers;
use crate::reply::{Fields, Missing, Reply};
use kusikhut::{Access, Header};

pub const COMMANDS: &[Command] = &[
    Command {
        name: "header",
        usage: "BODY",
        does: "read an extended link header",
        more: "BODY begins with CI 8C, 8D, 8E or 8F. Fields are shown as received, SN also as a number. Behind M2 stand \
               its letters= and address=, behind A2 its id=, version= and type=: they are the receiver's, and mean what \
               help read says of a sender's.",
        example: "header 8E2027AE8C785634120107",
        run: header,
    },
    Command {
        name: "write-header",
        usage:
            "8C CC ACC | 8D CC ACC SN CRC | 8E CC ACC M2 A2 | 8F CC ACC M2 A2 SN CRC [room=17] [fill=00] [show=lent]",
        does: "write an extended link header",
        more: "Each field is its bytes as they are sent.",
        example: "write-header 8E 20 27 AE0C 785634120107",
        run: write_header,
    },
    Command {
        name: "access",
        usage: "CC",
        does: "when a meter may be called",
        more: "By its byte CC.",
        example: "access 84",
        run: access,
    },
];

fn header(mut a: Args) -> Result<Reply, Fault> {
    let body = a.last_bytes("BODY")?;
    a.end()?;
    let reply = Reply::of(Header::read(&body), |f, (header, size)| {
        let f = f.number("size", size).bytes("ci", &[header.ci()]);
        match header {
            Header::Plain { cc, acc } => control(f, cc, acc),
            Header::Secured { cc, acc, sn, crc } => session(control(f, cc, acc), sn, crc),
            Header::Addressed { cc, acc, m2, a2 } => named(control(f, cc, acc), m2, a2),
            Header::AddressedSecured { cc, acc, m2, a2, sn, crc } => {
                session(named(control(f, cc, acc), m2, a2), sn, crc)
            }
        }
    });
    let reply = reply.if_number(numbers::UNKNOWN_CI, |f| f.bytes("ci", &body[..1]));
    Ok(reply.if_number(numbers::BODY_TOO_SHORT, |f| f.missing_bytes(missing(&body))))
}

/// How many bytes are missing to the header that the body's first byte announces.
fn missing(body: &[u8]) -> Missing {
    if body.is_empty() {
        return Missing::AtLeast(1);
    }
    let filled = [body, &[0; LONGEST]].concat();
    let (_, size) = Header::read(&filled).expect("this is long enough");
    Missing::Exactly(size - body.len() as u64)
}

fn control(fields: Fields, cc: u8, acc: u8) -> Fields {
    fields.bytes("cc", &[cc]).bytes("acc", &[acc])
}

fn named(fields: Fields, m2: u16, a2: [u8; 6]) -> Fields {
    let received = m2.to_le_bytes();
    printed(maker(fields.bytes("m2", &received), received).bytes("a2", &a2), a2)
}

fn session(fields: Fields, sn: u32, crc: [u8; 2]) -> Fields {
    fields.bytes("sn", &sn.to_le_bytes()).number("sn-number", sn.into()).bytes("crc", &crc)
}

/// The longest header.
pub const LONGEST: usize = 17;

/// The byte that says which header it is.
fn kind(a: &mut Args) -> Result<u8, Fault> {
    let at = a.place();
    let ci = a.byte("CI")?;
    match ci {
        0x8C..=0x8F => Ok(ci),
        _ => Err(Fault::of_word(at, format!("CI is {ci:02X} and must be one of 8C, 8D, 8E, 8F"))),
    }
}

fn write_header(mut a: Args) -> Result<Reply, Fault> {
    let ci = kind(&mut a)?;
    let (cc, acc) = (a.byte("CC")?, a.byte("ACC")?);
    let (mut m2, mut a2, mut sn, mut crc) = (0, [0; 6], 0, [0; 2]);
    if ci >= 0x8E {
        m2 = u16::from_le_bytes(a.fixed::<2>("M2")?);
        a2 = a.fixed::<6>("A2")?;
    }
    if ci == 0x8D || ci == 0x8F {
        sn = u32::from_le_bytes(a.fixed::<4>("SN")?);
        crc = a.fixed::<2>("CRC")?;
    }
    let header = match ci {
        0x8C => Header::Plain { cc, acc },
        0x8D => Header::Secured { cc, acc, sn, crc },
        0x8E => Header::Addressed { cc, acc, m2, a2 },
        _ => Header::AddressedSecured { cc, acc, m2, a2, sn, crc },
    };
    let mut lent = a.lent(LONGEST)?;
    a.end()?;
    let reply = Reply::of(header.write(&mut lent.bytes), |f, size| lent.result(f.number("size", size), "header", size));
    let needs = || header.write(&mut [0; LONGEST]).expect("this is room enough");
    Ok(reply
        .if_number(numbers::NO_ROOM, |f| f.number("room", lent.room()).number("needs", needs()))
        .with(|f| lent.all(f)))
}

fn access(mut a: Args) -> Result<Reply, Fault> {
    let cc = a.byte("CC")?;
    a.end()?;
    let name = match kusikhut::access(cc) {
        Access::Never => "none",
        Access::NotNow => "none-for-now",
        Access::Limited => "limited",
        Access::Always => "unlimited",
    };
    Ok(Reply::accepted().with(|f| f.word("access", name)))
}
