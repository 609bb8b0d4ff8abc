//! Makes cases for the comparison, seeded and so repeatable. A case is mostly
//! something valid, then perhaps damaged, with its numbers and its lent memory
//! on one side or the other of an edge.

mod bytes;
mod chips;
mod correction;
mod correction_inputs;
mod decoding;
mod decoding_inputs;
mod filter_inputs;
mod mending;
mod mending_inputs;
mod names;
pub mod patterns;
mod radio;
pub mod sequence;
mod store;
mod store_inputs;

use crate::case::{Argument, Case, Operation};
use crate::frames::Format;
use crate::implementation::Implementation;
use crate::random::Random;

pub use correction_inputs::correction_inputs;
pub use decoding_inputs::decoding_inputs;
pub use filter_inputs::filter_inputs;
pub use mending_inputs::mending_inputs;
pub use store_inputs::store_inputs;

/// Numbers whose product with 6, 8, 12 or 16, or whose sum with a small number,
/// does not fit: what wraps around anywhere shows here.
const HUGE: [usize; 10] = [
    usize::MAX,
    usize::MAX - 1,
    usize::MAX - 15,
    usize::MAX / 2 + 1,
    usize::MAX / 6 + 1,
    usize::MAX / 8 + 1,
    usize::MAX / 12 + 1,
    usize::MAX / 16 + 1,
    usize::MAX / 16 + 2,
    usize::MAX / 250 + 1,
];

/// Cases without end, the calls in turn.
pub struct Cases {
    random: Random,
    turn: usize,
}

impl Cases {
    pub fn new(seed: u64) -> Cases {
        Cases {
            random: Random::new(seed),
            turn: 0,
        }
    }
}

impl Iterator for Cases {
    type Item = Case;

    fn next(&mut self) -> Option<Case> {
        let operation = Operation::CALLS[self.turn];
        self.turn = (self.turn + 1) % Operation::CALLS.len();
        Some(case(&mut self.random, operation))
    }
}

/// A case for an operation.
pub fn case(random: &mut Random, operation: Operation) -> Case {
    let arguments = match operation {
        Operation::Decode => chips::decode(random),
        Operation::Encode => chips::encode(random),
        Operation::Word => chips::word(random),
        Operation::Search => chips::search(random),
        Operation::Check => bytes::check(random),
        Operation::CheckUpdate => bytes::check_update(random),
        Operation::FrameRead => bytes::frame_read(random),
        Operation::FrameWrite => bytes::frame_write(random),
        Operation::FrameChange => bytes::frame_change(random),
        Operation::FrameSize => bytes::frame_size(random),
        Operation::CorrectionWrite => correction::write(random),
        Operation::CorrectionCheckBytes => correction::check_bytes(random),
        Operation::CorrectionHeader => correction::header(random),
        Operation::TakeProposal => mending::take_proposal(random),
        Operation::ProposeOne => mending::propose_one(random),
        Operation::Propose => decoding::propose(random),
        Operation::Receive => radio::receive(random),
        Operation::ReceiveManchester => radio::receive_manchester(random),
        Operation::Send => radio::send(random),
        Operation::HeaderRead => names::header_read(random),
        Operation::HeaderWrite => names::header_write(random),
        Operation::Access => vec![number(random.byte())],
        Operation::Maker => names::maker(random),
        Operation::Filter => names::filter(random),
        Operation::ChannelRow => vec![names::index(random)],
        Operation::ChannelCentre => vec![names::index(random), names::channel(random)],
        Operation::BandLine => vec![
            names::band_input(random).into(),
            names::band_place(random).into(),
        ],
        Operation::StoreEmpty => store::empty(random),
        Operation::StoreAdd => store::add(random),
        Operation::StoreHear => store::hear(random),
        Operation::StoreIssue | Operation::StoreLookUp => store::of_a_meter(random),
        Operation::StoreRestore => store::restore(random),
        Operation::StoreWrite => store::write(random),
        Operation::StoreAllowance => store::allowance(random),
        Operation::StoreSetAllowance => store::set_allowance(random),
        Operation::Words => chips::words(random),
    };
    Case::new(operation, arguments)
}

/// Every input of the operations that have few: access, what M says, frame sizes,
/// all indices and channels a little beyond Table 21, and the lists of all bands
/// a little beyond the longest, for every letter; and the small inputs of the
/// filter, of correction bytes and of mending, by one proposer and by the other.
pub fn small_inputs() -> Vec<Case> {
    let mut cases = Vec::new();
    for cc in 0..=0xFFu8 {
        cases.push(Case::new(Operation::Access, vec![number(cc)]));
    }
    for m in 0..=0xFFFFu16 {
        cases.push(Case::new(Operation::Maker, vec![number(m)]));
    }
    for format in Format::ALL {
        for length in 0..=0xFFu8 {
            let arguments = vec![number(format as u8), number(length)];
            cases.push(Case::new(Operation::FrameSize, arguments));
        }
    }
    for index in 0..=20usize {
        cases.push(Case::new(Operation::ChannelRow, vec![index.into()]));
        for channel in 0..=25usize {
            cases.push(Case::new(
                Operation::ChannelCentre,
                vec![index.into(), channel.into()],
            ));
        }
    }
    for letter in 0..=0xFFu8 {
        for input in [vec![letter], vec![letter, b'\n']] {
            for k in 0..=60usize {
                let arguments = vec![input.clone().into(), k.into()];
                cases.push(Case::new(Operation::BandLine, arguments));
            }
        }
    }
    cases.extend(filter_inputs());
    cases.extend(correction_inputs());
    cases.extend(mending_inputs());
    cases.extend(decoding_inputs());
    cases
}

/// One case of a call for each answer number that it gives.
pub fn one_of_each(
    operation: Operation,
    numbers: &[u64],
    with: &dyn Implementation,
) -> Vec<(u64, Case)> {
    let mut random = Random::new(operation as u64 + 1);
    let mut found = Vec::new();
    for &number in numbers {
        let right = |case: &Case| case.run(with).answer.number == number;
        let mut cases = (0..10_000).map(|_| case(&mut random, operation));
        let one = cases.find(right);
        found.push((
            number,
            one.unwrap_or_else(|| panic!("{operation:?} never gave {number}")),
        ));
    }
    found
}

/// Inputs of the program `words`: its edges, and `count` made from a seed.
pub fn words_cases(seed: u64, count: usize) -> Vec<Case> {
    let mut random = Random::new(seed);
    let mut cases = Vec::new();
    for input in chips::words_edges() {
        cases.push(Case::new(Operation::Words, vec![input.into()]));
    }
    for _ in 0..count {
        cases.push(case(&mut random, Operation::Words));
    }
    cases
}

fn number(number: impl Into<u64>) -> Argument {
    Argument::Number(number.into())
}

/// Lent memory for a result of this size: longer, just enough, one byte short
/// or empty. What it holds is random, so that a byte wrongly written shows.
fn output_for(random: &mut Random, size: usize) -> Vec<u8> {
    let length = match random.below(10) {
        0 => 0,
        1 => size.saturating_sub(1),
        2 => random.below(size + 1),
        3..=5 => size,
        6 => size + 1,
        _ => size + random.below(40),
    };
    random.bytes(length)
}
