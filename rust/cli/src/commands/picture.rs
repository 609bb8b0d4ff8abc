//! A frame as a drawing.
use super::frame::{reading, FORMATS, MOST_CONTENT};
use super::radio::Asked;
use super::Command;
use crate::args::Args;
use crate::fault::Fault;
use crate::picture;
use crate::reply::Reply;

pub const COMMANDS: &[Command] = &[Command {
    name: "picture",
    usage: "receive CHIPS .. | manchester CHIPS .. | read FORMAT BYTES ..",
    does: "draw a frame as SVG, with the reason if it is refused",
    more: "The words behind picture are those of the command itself, options too; what it answers is drawn: chips, \
               words, bytes, fields, blocks and checks, and in red the place that decided. Send it to a file \
               (> frame.svg) and open that in a browser. The exit status is the answer's.",
    example: "picture receive 543D5A971C9B25B44EC65A2DC34E58D59371C7134EC5A334B70B699B133726B1",
    run: picture,
}];

type Drawn = fn(Args) -> Result<Reply, Fault>;

const DRAWN: [(&str, Drawn); 3] = [("receive", searched), ("manchester", at_named_chip), ("read", read)];

fn picture(mut a: Args) -> Result<Reply, Fault> {
    let drawn = a.choice("COMMAND", &DRAWN)?;
    drawn(a)
}

fn searched(a: Args) -> Result<Reply, Fault> {
    Ok(on_air(Asked::with_search(a)?))
}

fn at_named_chip(a: Args) -> Result<Reply, Fault> {
    Ok(on_air(Asked::at_named_chip(a)?))
}

fn on_air(mut asked: Asked) -> Reply {
    let reply = asked.answer();
    let drawing = picture::of_chips(&reply, &asked.on_air());
    reply.drawn(drawing)
}

fn read(mut a: Args) -> Result<Reply, Fault> {
    let format = a.choice("FORMAT", &FORMATS)?;
    let bytes = a.last_bytes("BYTES")?;
    let mut lent = a.lent(MOST_CONTENT)?;
    a.end()?;
    let reply = reading(format, &bytes, &mut lent);
    let drawing = picture::of_bytes(&reply, format, &bytes);
    Ok(reply.drawn(drawing))
}
