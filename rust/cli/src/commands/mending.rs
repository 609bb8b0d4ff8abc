//! Mending by correction bytes: a proposal for what was received is judged, and its frame is read if it was taken.
use super::correction::too_long;
use super::frame::{reading, FORMATS, MOST_CONTENT};
use super::Command;
use crate::args::{Args, Lent};
use crate::fault::Fault;
use crate::notation::{self, shortened};
use crate::numbers;
use crate::reply::{Below, Fields, Missing, Reply};
use kusikhut::{Format, Refusal, CORRECTION_SIZE};

pub const COMMANDS: &[Command] = &[Command {
    name: "mend",
    usage: "FORMAT RECEIVED [proposal=BYTES] [upto=16] [room=255] [fill=00] [show=lent]",
    does: "mend a frame by its correction bytes",
    more: "A proposal (frame and check bytes) is judged for RECEIVED (frame, header and check bytes), the \
               places where they differ are shown, and what is taken is read. Without proposal= one is made that \
               mends up to 16 wrong bytes, or with upto=1 a single one; the length byte is not covered. What stands \
               below reading= help read says. Read docs/CORRECTION.md before use.",
    example: "mend A 0F44AE0C7856341201074447780B134465871E6D2104\
                  84EA276958EC76A29678BF51DFED7661D46D36B8523BAE787CEFFD7B007EC9C6",
    run: mend,
}];

const HEADER_SIZE: usize = 2;

fn mend(mut a: Args) -> Result<Reply, Fault> {
    let format = a.choice("FORMAT", &FORMATS)?;
    let received = a.last_bytes("RECEIVED")?;
    let given = a.option_bytes("proposal")?;
    let proposer = a.proposer(given.is_some())?;
    let mut lent = a.lent(MOST_CONTENT)?;
    a.end()?;
    let made = given.is_none();
    let reply = match given.map_or_else(|| proposed_by(proposer, format, &received), Ok) {
        Ok(proposal) => judged(format, &proposal, made, &received, &mut lent),
        Err(refusal) => {
            let short = [("RECEIVED", missing(format, &received, &received, CORRECTION_SIZE))];
            by_length_byte(told_short(Reply::refused(refusal), &short), format, "RECEIVED", &received)
        }
    };
    // Of a proposal that was taken, reading shows the memory.
    Ok(if reply.number == 0 { reply } else { reply.with(|f| lent.all(f)) })
}

/// How many bytes are missing to a frame, by a length byte, and what stands behind it.
fn missing(format: Format, by: &[u8], bytes: &[u8], behind: usize) -> Missing {
    match by.first() {
        Some(&l) => {
            let needed = format.frame_size(l).unwrap_or(0) + behind as u64;
            Missing::Exactly(needed.saturating_sub(bytes.len() as u64))
        }
        None => Missing::AtLeast(1),
    }
}

/// Of a length byte that is not allowed, or a frame that is too long by it, whose it is, and how much that would be.
fn by_length_byte(reply: Reply, format: Format, name: &'static str, word: &[u8]) -> Reply {
    let l = || word.first().map_or(0, |&l| l.into());
    let reply = reply
        .if_number(numbers::LENGTH_NOT_ALLOWED, |f| f.word("in", name).number("l", l()))
        .if_number(numbers::TOO_LONG_FOR_CORRECTION, |f| f.word("in", name));
    too_long(reply, format, word)
}

/// Of 1, too-short, which of the words is too short, and by how many bytes.
fn told_short(reply: Reply, words: &[(&'static str, Missing)]) -> Reply {
    match words.iter().find(|&&(_, missing)| missing != Missing::Exactly(0)) {
        Some(&(name, missing)) => reply.if_number(numbers::TOO_SHORT, |f| f.word("in", name).missing_bytes(missing)),
        None => reply,
    }
}

type Proposer = fn(Format, &[u8], &mut [u8]) -> Result<u64, Refusal>;

/// By how many wrong bytes are mended, the usual one first.
const PROPOSERS: [(u64, Proposer); 2] = [(16, Format::propose), (1, Format::propose_one)];

impl Args<'_> {
    fn proposer(&mut self, given: bool) -> Result<Proposer, Fault> {
        let Some((at, text)) = self.option("upto") else {
            return Ok(PROPOSERS[0].1);
        };
        if given {
            return Err(Fault::of_word(at, "upto is for a proposal that is made here, and proposal= is given"));
        }
        let asked = notation::number(text).ok();
        let proposer = PROPOSERS.iter().find(|&&(bytes, _)| Some(bytes) == asked).map(|&(_, proposer)| proposer);
        proposer.ok_or_else(|| Fault::of_word(at, format!("upto is {} and must be 16 or 1", shortened(text))))
    }
}

/// What is proposed has fewer bytes than were received, so that they are room enough.
fn proposed_by(proposer: Proposer, format: Format, received: &[u8]) -> Result<Vec<u8>, Refusal> {
    let mut proposal = vec![0; received.len()];
    let size = proposer(format, received, &mut proposal)?;
    proposal.truncate(size as usize);
    Ok(proposal)
}

/// What judging answers, with the two words wherever it came to compare them; of a taken one also what reading answers.
/// A proposer of ours goes by the received length byte, which is said: whoever knows another can propose it.
fn judged(format: Format, proposal: &[u8], made: bool, received: &[u8], lent: &mut Lent) -> Reply {
    let told = |reply| {
        let reply = Words::of(format, proposal, received).tell(reply);
        let uncovered = || Fields::default().bytes("length-byte", &received[..1]).is("covered", false);
        if made {
            reply.below(Below::Part("length", uncovered()))
        } else {
            reply
        }
    };
    match format.judge_proposal(proposal, received) {
        Ok(differing) => {
            let places = Words::of(format, proposal, received).places.len() as u64;
            assert_eq!(places, differing, "the library counts the same places");
            let read = reading(format, proposal, lent);
            told(Reply::accepted().with(|f| f.number("differing", differing))).below(Below::Reply("reading", read))
        }
        Err(refusal) if JUDGED_WHOLE.contains(&refusal.number()) => told(Reply::refused(refusal)),
        Err(refusal) => {
            let words = [
                ("proposal", missing(format, proposal, proposal, CORRECTION_SIZE - HEADER_SIZE)),
                ("RECEIVED", missing(format, proposal, received, CORRECTION_SIZE)),
            ];
            by_length_byte(told_short(Reply::refused(refusal), &words), format, "proposal", proposal)
        }
    }
}

/// The refusals of judging that are given where all bytes are there.
const JUDGED_WHOLE: [u8; 2] = [numbers::NOT_IN_CORRECTION_CODE, numbers::TOO_FAR_FOR_CORRECTION];

/// What was received and what is proposed, frame, header and check bytes, and the places where the two differ.
struct Words {
    received: Vec<u8>,
    proposed: Vec<u8>,
    size: usize,
    places: Vec<usize>,
}

impl Words {
    /// The proposal was taken, or refused with 25 or 26: so its length byte is allowed, and all bytes are there.
    fn of(format: Format, proposal: &[u8], received: &[u8]) -> Words {
        let size = format.frame_size(proposal[0]).expect("judging allows this length byte") as usize;
        let received = received[..size + CORRECTION_SIZE].to_vec();
        let (frame, behind) = proposal.split_at(size);
        let check_bytes = &behind[..CORRECTION_SIZE - HEADER_SIZE];
        // No header is proposed. With the received one between them, all bytes stand where the received ones do.
        let proposed = [frame, &received[size..size + HEADER_SIZE], check_bytes].concat();
        let places = (0..received.len()).filter(|&at| received[at] != proposed[at]).collect();
        Words { received, proposed, size, places }
    }

    /// A line for each of the two, and one for each place.
    fn tell(&self, reply: Reply) -> Reply {
        let (size, checks) = (self.size, self.size + HEADER_SIZE);
        let word = |name: &str, word: &[u8]| Fields::default().word("word", name).bytes("frame", &word[..size]);
        let received = word("received", &self.received).bytes("header", &self.received[size..checks]);
        let words = vec![
            received.bytes("check-bytes", &self.received[checks..]),
            word("proposed", &self.proposed).bytes("check-bytes", &self.proposed[checks..]),
        ];
        reply.below(Below::List("words", words)).list("places", &self.places, |&at| {
            let row = Fields::default().number("place", at as u64).bytes("received", &self.received[at..=at]);
            row.bytes("proposed", &self.proposed[at..=at])
        })
    }
}
