//! Mending that is wrong on purpose: the comparison must notice each, in the cases
//! from a seed and in the small inputs.

use super::comparing::{Broken, Flaw, COUNT, SEED};
use super::correction::Division;
use super::decoding_flaws;
use crate::answer::{Answer, Refusal};
use crate::case::{Case, Operation};
use crate::compare::{compare, compare_cases};
use crate::correction::{read_header, times};
use crate::frames::{content_of, Format};
use crate::generator::mending_inputs;
use crate::implementation::{MendingCalls, Second};
use crate::mending::{is_code_word, single_wrong, values_of};

/// Ways to be wrong with mending.
#[derive(Clone, Copy, Debug, PartialEq)]
pub enum MendingFlaw {
    // In taking.
    /// 17 bytes may differ.
    SeventeenTaken,
    /// 16 bytes may not.
    SixteenRefused,
    /// 26 before 25.
    DifferenceFirst,
    /// 26 with the number of bytes that differ.
    CountShown,
    /// Nothing is ever 25.
    CodeNotJudged,
    /// The roots from the first of these to before the second are not looked at.
    RootsLeftOut(usize, usize),
    /// Roots for j from 111 to 142.
    RootsFrom111,
    /// The field of x^8 + x^4 + x^3 + x^2 + 1.
    OtherField,
    /// Wrong bytes of the header count.
    HeaderCounted,
    /// 24 for a header of another code.
    HeaderJudged,
    /// The header is taken for the first check bytes.
    HeaderNotSkipped,
    /// Only the bytes of the frame are compared.
    FrameAloneCompared,
    /// Only the check bytes are compared.
    CheckBytesAloneCompared,
    /// The length byte does not count.
    LengthByteNotCounted,
    /// The length byte must not differ.
    LengthByteMustStay,
    /// Bits that differ are counted.
    BitsCounted,
    /// 3 for a wrong block check in the proposed frame.
    BlockChecksJudged,
    /// Sizes by the received L.
    SizesByReceived,
    /// 2 for a received L that is not allowed.
    ReceivedLengthJudged,
    /// A proposal with bytes behind it is no code word.
    LongerProposalRefused,
    /// The received check bytes are the last that there are.
    CheckBytesAtTheEnd,
    /// Nothing received is 1 before 2 and 23.
    NothingReceivedFirst,
    /// 1 before 23.
    EndBeforeLength,
    /// 25 before the 1 of what was received.
    CodeBeforeTheEnd,
    /// A proposal with too few bytes is 25.
    ShortProposalIs25,
    /// The last byte that should be received may be missing.
    LastByteMayBeMissing,
    /// As many bytes need be received as are proposed.
    HeaderMayBeMissing,
    /// A frame of 223 bytes is too long.
    Refuses223,
    /// A frame of 224 bytes is not.
    Takes224,

    // In proposing.
    /// The received word is always proposed.
    NeverMends,
    /// A wrong check byte is left.
    CheckBytesLeft,
    /// A wrong byte of the frame is left.
    FrameLeft,
    /// The byte behind the length byte is left.
    FirstContentByteLeft,
    /// The last byte is left.
    LastByteLeft,
    /// The length byte is mended, too.
    LengthByteMended,
    /// A wrong byte of the fill is mended in the word.
    FillMended,
    /// The roots from the first of these to before the second are not looked at.
    ProposerLeavesOut(usize, usize),
    /// Two wrong bytes of a short word are mended.
    TwoMended,
    /// Only wrong bits that are alone in their byte are mended.
    OneBitMended,
    /// Only what makes a sound frame is mended.
    SoundFramesOnly,
    /// Zeros are proposed where nothing can be mended.
    ZerosElse,
    /// Nothing is written where nothing can be mended.
    NothingElse,
    /// 25 where nothing can be mended.
    RefusesElse,
    /// The header is proposed, too.
    HeaderProposed,
    /// 24 for a header of another code.
    HeaderJudgedByProposer,
    /// The received check bytes are the last that there are.
    ProposesCheckBytesAtTheEnd,
    /// 4 before 23.
    RoomBeforeLength,
    /// 4 before 1.
    RoomBeforeTheEnd,
    /// 1 before 23.
    ProposerEndBeforeLength,
    /// As many bytes need be received as are proposed.
    ProposesWithoutHeader,
    /// A frame of 223 bytes is too long.
    ProposerRefuses223,
    /// On 4 the front of the proposal is written.
    WritesWhatFits,
    /// On 1 what there is is written.
    WritesWhatIsThere,
    /// The byte behind the proposal is cleared.
    ClearsBehind,
    /// The row tells the frame's size.
    TellsTheFrame,
}

fn refuse(refusal: Refusal) -> Answer {
    Answer::refused(refusal, 1, 0)
}

/// The size of the frame that begins with this L, if L is allowed.
pub fn size_by(format: Format, bytes: &[u8]) -> Option<usize> {
    let sizes = format.sizes(*bytes.first()?).ok()?;
    Some(sizes.frame)
}

/// Where two differ.
pub fn places_that_differ(one: &[u8], other: &[u8]) -> Vec<usize> {
    let places = 0..one.len().min(other.len());
    places.filter(|&place| one[place] != other[place]).collect()
}

/// The same bytes without the two of the header.
pub fn without_header(received: &[u8], frame: usize) -> Vec<u8> {
    [&received[..frame], &received[frame + 2..]].concat()
}

// ---------------------------------------------------------------------- taking

/// The rest of judging, with the size of the frame decided. Bytes that are missing
/// at the end of what was received are zeros.
fn judged(frame: usize, proposed: &[u8], received: &[u8]) -> Answer {
    let mut received = received.to_vec();
    received.resize(received.len().max(frame + 34), 0);
    let Some(proposed) = proposed.get(..frame + 32) else {
        return refuse(Refusal::Ends);
    };
    let count = places_that_differ(proposed, &without_header(&received, frame)).len();
    by_count(proposed, count)
}

/// A proposal that differs in so many bytes.
fn by_count(proposed: &[u8], count: usize) -> Answer {
    match count {
        _ if !is_code_word(proposed) => refuse(Refusal::NotOfTheCode),
        0..=16 => Answer::accepted(&[count as u64]),
        _ => refuse(Refusal::TooManyDiffer),
    }
}

/// Wrong by the lengths of what is proposed and received.
fn judged_wrongly_by_size(
    flaw: MendingFlaw,
    format: Format,
    proposed: &[u8],
    received: &[u8],
) -> Option<Answer> {
    if flaw == MendingFlaw::NothingReceivedFirst && received.is_empty() {
        return Some(refuse(Refusal::Ends));
    }
    let of_received = size_by(format, received);
    let frame = size_by(format, proposed)?;
    let proposal_ends = proposed.len() < frame + 32;
    let missing = (frame + 34).saturating_sub(received.len());
    let answer = match flaw {
        MendingFlaw::EndBeforeLength if proposal_ends || missing > 0 => refuse(Refusal::Ends),
        MendingFlaw::Refuses223 if frame == 223 => refuse(Refusal::TooLongForCorrection),
        MendingFlaw::Takes224 if frame == 224 && !proposal_ends && missing == 0 => {
            refuse(Refusal::NotOfTheCode)
        }
        _ if frame > 223 => return None,
        MendingFlaw::ShortProposalIs25 if proposal_ends => refuse(Refusal::NotOfTheCode),
        _ if proposal_ends => return None,
        MendingFlaw::SizesByReceived => match of_received {
            Some(size) if size <= 223 && received.len() >= size + 34 => {
                judged(size, proposed, received)
            }
            _ => return None,
        },
        MendingFlaw::ReceivedLengthJudged if missing == 0 && of_received.is_none() => {
            refuse(Refusal::LengthNotAllowed)
        }
        MendingFlaw::CodeBeforeTheEnd if !is_code_word(&proposed[..frame + 32]) => {
            refuse(Refusal::NotOfTheCode)
        }
        MendingFlaw::LastByteMayBeMissing if missing == 1 => judged(frame, proposed, received),
        MendingFlaw::HeaderMayBeMissing if missing <= 2 => judged(frame, proposed, received),
        _ => return None,
    };
    Some(answer)
}

/// All roots but those from one to before another.
fn all_but(from: usize, to: usize) -> Vec<usize> {
    (0..from).chain(to..32).collect()
}

/// Whether a wrong code has this word; none where the code is the right one.
fn in_wrong_code(flaw: MendingFlaw, word: &[u8]) -> Option<bool> {
    let right = Division::RIGHT;
    let divided = |code: Division| {
        let (frame, check_bytes) = word.split_at(word.len() - 32);
        code.check_bytes(frame) == check_bytes
    };
    Some(match flaw {
        MendingFlaw::CodeNotJudged => true,
        MendingFlaw::RootsLeftOut(from, to) => {
            let values = values_of(word);
            all_but(from, to).iter().all(|&root| values[root] == 0)
        }
        MendingFlaw::RootsFrom111 => divided(Division {
            first: 111,
            ..right
        }),
        MendingFlaw::OtherField => divided(Division {
            field: 0b1_0001_1101,
            ..right
        }),
        _ => return None,
    })
}

/// How many bytes differ, counted wrongly; none where they are counted right.
fn counted_wrongly(
    flaw: MendingFlaw,
    frame: usize,
    proposed: &[u8],
    received: &[u8],
) -> Option<usize> {
    let word = without_header(received, frame);
    let places = places_that_differ(proposed, &word);
    let count = |wanted: &dyn Fn(usize) -> bool| places.iter().filter(|&&at| wanted(at)).count();
    Some(match flaw {
        MendingFlaw::HeaderCounted => {
            let header = &received[frame..frame + 2];
            places.len() + places_that_differ(header, &[0x21, 0x04]).len()
        }
        MendingFlaw::HeaderNotSkipped => places_that_differ(proposed, received).len(),
        MendingFlaw::FrameAloneCompared => count(&|place| place < frame),
        MendingFlaw::CheckBytesAloneCompared => count(&|place| place >= frame),
        MendingFlaw::LengthByteNotCounted => count(&|place| place > 0),
        MendingFlaw::BitsCounted => {
            let bits = |&place: &usize| (proposed[place] ^ word[place]).count_ones() as usize;
            places.iter().map(bits).sum()
        }
        MendingFlaw::CheckBytesAtTheEnd => {
            let end = &received[received.len() - 32..];
            places_that_differ(proposed, &[&received[..frame], end].concat()).len()
        }
        _ => return None,
    })
}

/// Wrong in judging a proposal for which there are bytes enough.
fn judged_wrongly(
    flaw: MendingFlaw,
    format: Format,
    proposed: &[u8],
    received: &[u8],
) -> Option<Answer> {
    let frame = size_by(format, proposed).filter(|&frame| frame <= 223)?;
    let word = proposed.get(..frame + 32)?;
    let heard = without_header(received.get(..frame + 34)?, frame);
    let count = places_that_differ(word, &heard).len();
    if let Some(true) = in_wrong_code(flaw, word) {
        return Some(match count {
            0..=16 => Answer::accepted(&[count as u64]),
            _ => refuse(Refusal::TooManyDiffer),
        });
    }
    if let Some(false) = in_wrong_code(flaw, word) {
        return Some(refuse(Refusal::NotOfTheCode));
    }
    if let Some(count) = counted_wrongly(flaw, frame, word, received) {
        return Some(by_count(word, count));
    }
    let right = is_code_word(word);
    let refusal = match flaw {
        MendingFlaw::SeventeenTaken if right && count == 17 => {
            return Some(Answer::accepted(&[17]))
        }
        MendingFlaw::CountShown if right && count > 16 => {
            return Some(Answer {
                number: 26,
                row: vec![count as u64],
            })
        }
        MendingFlaw::SixteenRefused if right && count == 16 => Refusal::TooManyDiffer,
        MendingFlaw::DifferenceFirst if count > 16 => Refusal::TooManyDiffer,
        MendingFlaw::LengthByteMustStay if right && word[0] != heard[0] => Refusal::TooManyDiffer,
        MendingFlaw::HeaderJudged if right => read_header(&received[frame..]).err()?,
        MendingFlaw::BlockChecksJudged if right => content_of(format, word).err()?,
        MendingFlaw::LongerProposalRefused if proposed.len() > word.len() => Refusal::NotOfTheCode,
        _ => return None,
    };
    Some(refuse(refusal))
}

// ------------------------------------------------------------------- proposing

/// One of the two proposers, its format chosen: what is right, before a flaw spoils it.
pub type Proposer<'a> = &'a dyn Fn(&[u8], &mut [u8]) -> Answer;

/// A wrong refusal, or a wrong acceptance of what ends too early.
fn refused_wrongly(
    flaw: MendingFlaw,
    format: Format,
    right: Proposer,
    received: &[u8],
    out: &mut [u8],
) -> Option<Answer> {
    let frame = size_by(format, received)?;
    let missing = (frame + 34).saturating_sub(received.len());
    let too_small = out.len() < frame + 32;
    let refusal = match flaw {
        MendingFlaw::RoomBeforeLength if frame > 223 && too_small => Refusal::OutputTooSmall,
        MendingFlaw::ProposerEndBeforeLength if missing > 0 => Refusal::Ends,
        MendingFlaw::ProposerRefuses223 if frame == 223 => Refusal::TooLongForCorrection,
        _ if frame > 223 => return None,
        MendingFlaw::RoomBeforeTheEnd if too_small => Refusal::OutputTooSmall,
        MendingFlaw::ProposesWithoutHeader if (1..=2).contains(&missing) && !too_small => {
            let longer = [received, &[0; 2][..missing]].concat();
            return Some(right(&longer, out));
        }
        MendingFlaw::WritesWhatIsThere if missing > 0 => {
            let fits = received.len().min(out.len());
            out[..fits].copy_from_slice(&received[..fits]);
            Refusal::Ends
        }
        MendingFlaw::HeaderJudgedByProposer if missing == 0 && !too_small => {
            read_header(&received[frame..]).err()?
        }
        MendingFlaw::ProposesCheckBytesAtTheEnd if missing == 0 => {
            let front = &received[..frame + 2];
            let end = &received[received.len() - 32..];
            return Some(right(&[front, end].concat(), out));
        }
        _ => return None,
    };
    Some(refuse(refusal))
}

/// The values of a word with so many bytes that is 1 in one place and else zeros.
fn values_of_one(place: usize, size: usize) -> Vec<u8> {
    let mut one = vec![0; size];
    one[place] = 1;
    values_of(&one)
}

/// A word that should be left as it is, mended as a flaw does it.
fn mended_wrongly(flaw: MendingFlaw, word: &[u8]) -> Option<Vec<u8>> {
    let size = word.len();
    let values = values_of(word);
    // By how much the byte in a place is off, if it alone makes the values there.
    let off_at = |roots: &[usize], place| {
        let of_one = values_of_one(place, size);
        let makes = |off: &u8| {
            roots
                .iter()
                .all(|&root| times(of_one[root], *off) == values[root])
        };
        (1..=255).find(makes)
    };
    let with = |places: &[(usize, u8)]| {
        let mut mended = word.to_vec();
        for &(place, off) in places {
            mended[place] ^= off;
        }
        mended
    };
    match flaw {
        MendingFlaw::LengthByteMended => Some(with(&[(0, off_at(&all_but(0, 0), 0)?)])),
        MendingFlaw::ProposerLeavesOut(from, to) => {
            let roots = all_but(from, to);
            let single = |place| Some((place, off_at(&roots, place)?));
            Some(with(&[(1..size).find_map(single)?]))
        }
        MendingFlaw::FillMended => {
            let (place, off) = single_wrong(&values, 255)?;
            Some(with(&[(place % size, off)])).filter(|_| place < 255 - size)
        }
        MendingFlaw::TwoMended if size < 60 => (1..size).find_map(|place| {
            let of_one = values_of_one(place, size);
            (1..=255).find_map(|off| {
                // What the values are without this wrong byte.
                let without = |(value, &one): (&u8, &u8)| value ^ times(one, off);
                let left: Vec<u8> = values.iter().zip(&of_one).map(without).collect();
                Some(with(&[(place, off), single_wrong(&left, size)?]))
            })
        }),
        MendingFlaw::ZerosElse => Some(vec![0; size]),
        _ => None,
    }
}

/// A word with a single wrong byte that a flaw leaves as it is.
fn leaves(flaw: MendingFlaw, format: Format, place: usize, word: &[u8], mended: &[u8]) -> bool {
    let size = word.len();
    match flaw {
        MendingFlaw::NeverMends => true,
        MendingFlaw::CheckBytesLeft => place >= size - 32,
        MendingFlaw::FrameLeft => place < size - 32,
        MendingFlaw::FirstContentByteLeft => place == 1,
        MendingFlaw::LastByteLeft => place == size - 1,
        MendingFlaw::OneBitMended => !(word[place] ^ mended[place]).is_power_of_two(),
        MendingFlaw::SoundFramesOnly => content_of(format, mended).is_err(),
        _ => false,
    }
}

/// What a flaw makes of a proposer.
pub fn propose_wrongly(
    flaw: MendingFlaw,
    format: Format,
    right: Proposer,
    received: &[u8],
    out: &mut [u8],
) -> Answer {
    if let Some(wrong) = refused_wrongly(flaw, format, right, received, out) {
        return wrong;
    }
    let before = out.to_vec();
    let mut answer = right(received, out);
    if flaw == MendingFlaw::WritesWhatFits && answer.number == 4 {
        out.copy_from_slice(&received[..out.len()]);
    }
    if answer.number != 0 {
        return answer;
    }
    let size = answer.row[0] as usize;
    let frame = size - 32;
    let word = without_header(&received[..size + 2], frame);
    if let Some(&place) = places_that_differ(&word, out).first() {
        if leaves(flaw, format, place, &word, out) {
            out[..size].copy_from_slice(&word);
        }
    } else if !is_code_word(&word) {
        if let Some(mended) = mended_wrongly(flaw, &word) {
            out[..size].copy_from_slice(&mended);
        }
        match flaw {
            MendingFlaw::NothingElse => out.copy_from_slice(&before),
            MendingFlaw::RefusesElse => {
                out.copy_from_slice(&before);
                return refuse(Refusal::NotOfTheCode);
            }
            _ => {}
        }
    }
    match flaw {
        MendingFlaw::HeaderProposed if out.len() >= size + 2 => {
            out[frame..size + 2].rotate_right(2);
            out[frame..frame + 2].copy_from_slice(&received[frame..frame + 2]);
            answer.row[0] += 2;
        }
        MendingFlaw::ClearsBehind => out[size..].iter_mut().take(1).for_each(|byte| *byte = 0),
        MendingFlaw::TellsTheFrame => answer.row[0] = frame as u64,
        _ => {}
    }
    answer
}

impl MendingCalls for Broken {
    fn take_proposal(&self, format: Format, proposed: &[u8], received: &[u8]) -> Answer {
        let right = || Second.take_proposal(format, proposed, received);
        let Flaw::Mending(flaw) = self.0 else {
            return right();
        };
        judged_wrongly_by_size(flaw, format, proposed, received)
            .or_else(|| judged_wrongly(flaw, format, proposed, received))
            .unwrap_or_else(right)
    }

    fn propose_one(&self, format: Format, received: &[u8], out: &mut [u8]) -> Answer {
        let right = |received: &[u8], out: &mut [u8]| Second.propose_one(format, received, out);
        match self.0 {
            Flaw::Mending(flaw) => propose_wrongly(flaw, format, &right, received, out),
            _ => right(received, out),
        }
    }

    fn propose(&self, format: Format, received: &[u8], out: &mut [u8]) -> Answer {
        match self.0 {
            Flaw::Decoding(flaw) => decoding_flaws::propose_wrongly(flaw, format, received, out),
            _ => Second.propose(format, received, out),
        }
    }
}

/// Every flaw of taking.
const OF_TAKING: [MendingFlaw; 32] = [
    MendingFlaw::SeventeenTaken,
    MendingFlaw::SixteenRefused,
    MendingFlaw::DifferenceFirst,
    MendingFlaw::CountShown,
    MendingFlaw::CodeNotJudged,
    MendingFlaw::RootsLeftOut(0, 1),
    MendingFlaw::RootsLeftOut(8, 24),
    MendingFlaw::RootsLeftOut(31, 32),
    MendingFlaw::RootsLeftOut(1, 32),
    MendingFlaw::RootsFrom111,
    MendingFlaw::OtherField,
    MendingFlaw::HeaderCounted,
    MendingFlaw::HeaderJudged,
    MendingFlaw::HeaderNotSkipped,
    MendingFlaw::FrameAloneCompared,
    MendingFlaw::CheckBytesAloneCompared,
    MendingFlaw::LengthByteNotCounted,
    MendingFlaw::LengthByteMustStay,
    MendingFlaw::BitsCounted,
    MendingFlaw::BlockChecksJudged,
    MendingFlaw::SizesByReceived,
    MendingFlaw::ReceivedLengthJudged,
    MendingFlaw::LongerProposalRefused,
    MendingFlaw::CheckBytesAtTheEnd,
    MendingFlaw::NothingReceivedFirst,
    MendingFlaw::EndBeforeLength,
    MendingFlaw::CodeBeforeTheEnd,
    MendingFlaw::ShortProposalIs25,
    MendingFlaw::LastByteMayBeMissing,
    MendingFlaw::HeaderMayBeMissing,
    MendingFlaw::Refuses223,
    MendingFlaw::Takes224,
];

/// Every flaw of proposing.
const OF_PROPOSING: [MendingFlaw; 29] = [
    MendingFlaw::NeverMends,
    MendingFlaw::CheckBytesLeft,
    MendingFlaw::FrameLeft,
    MendingFlaw::FirstContentByteLeft,
    MendingFlaw::LastByteLeft,
    MendingFlaw::LengthByteMended,
    MendingFlaw::FillMended,
    MendingFlaw::ProposerLeavesOut(0, 1),
    MendingFlaw::ProposerLeavesOut(8, 24),
    MendingFlaw::ProposerLeavesOut(31, 32),
    MendingFlaw::ProposerLeavesOut(2, 32),
    MendingFlaw::TwoMended,
    MendingFlaw::OneBitMended,
    MendingFlaw::SoundFramesOnly,
    MendingFlaw::ZerosElse,
    MendingFlaw::NothingElse,
    MendingFlaw::RefusesElse,
    MendingFlaw::HeaderProposed,
    MendingFlaw::HeaderJudgedByProposer,
    MendingFlaw::ProposesCheckBytesAtTheEnd,
    MendingFlaw::RoomBeforeLength,
    MendingFlaw::RoomBeforeTheEnd,
    MendingFlaw::ProposerEndBeforeLength,
    MendingFlaw::ProposesWithoutHeader,
    MendingFlaw::ProposerRefuses223,
    MendingFlaw::WritesWhatFits,
    MendingFlaw::WritesWhatIsThere,
    MendingFlaw::ClearsBehind,
    MendingFlaw::TellsTheFrame,
];

/// Every flaw, and the call in which it must show.
fn flaws() -> Vec<(MendingFlaw, Operation)> {
    let of_taking = OF_TAKING.map(|flaw| (flaw, Operation::TakeProposal));
    let of_proposing = OF_PROPOSING.map(|flaw| (flaw, Operation::ProposeOne));
    of_taking.into_iter().chain(of_proposing).collect()
}

#[test]
fn every_flaw_is_found_in_single_calls() {
    for (flaw, operation) in flaws() {
        let broken = Broken(Flaw::Mending(flaw));
        let found = compare(&Second, &broken, SEED, COUNT);
        let difference = found.expect_err(&format!("{flaw:?} was not found"));
        assert_eq!(difference.case.operation, operation, "{flaw:?}");
        // From the printed line alone the difference comes up again.
        let again = Case::from_text(&difference.case.to_string()).unwrap();
        assert_ne!(again.run(&Second), again.run(&broken), "{flaw:?}");
    }
}

#[test]
fn every_flaw_is_found_in_the_small_inputs() {
    let inputs = mending_inputs();
    for (flaw, operation) in flaws() {
        let cases = inputs.iter().filter(|case| case.operation == operation);
        let found = compare_cases(&Second, &Broken(Flaw::Mending(flaw)), cases.cloned());
        assert!(found.is_err(), "{flaw:?} was not found");
    }
}
