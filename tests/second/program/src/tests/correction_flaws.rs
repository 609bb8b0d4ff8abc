//! Correction bytes that are wrong on purpose: the comparison must notice each,
//! in the cases from a seed and in the small inputs.

use super::comparing::{Broken, Flaw, COUNT, SEED};
use super::correction::Division;
use crate::answer::{Answer, Refusal};
use crate::case::{Case, Operation};
use crate::chips::put;
use crate::compare::{compare, compare_cases};
use crate::correction::{check_bytes_of, id_of};
use crate::frames::{content_of, Format, Sizes};
use crate::generator::correction_inputs;
use crate::implementation::{CorrectionCalls, Second};

/// Ways to be wrong with correction bytes.
#[derive(Clone, Copy, Debug, PartialEq)]
pub enum CorrectionFlaw {
    /// Roots for j from 111 to 142.
    RootsFrom111,
    /// Roots alpha^j, without the 11.
    RootsWithoutEleven,
    /// The field of x^8 + x^4 + x^3 + x^2 + 1.
    OtherField,
    /// Bit 7 of a byte counts alpha^0.
    BitsTurned,
    /// The lowest power first.
    CheckBytesTurned,
    /// A word without a byte ends too early.
    EmptyRefused,
    /// Zeros in front are taken for fill, so that 224 bytes may be a word.
    ZerosNotCounted,
    /// 223 bytes are too many.
    Refuses223,
    /// 4 before 23.
    RoomBeforeLength,
    /// On 4 the front of the check bytes is written.
    WritesWhatFits,
    /// The byte behind the check bytes is cleared.
    ClearsBehind,
    /// The row tells the size of the word with its check bytes.
    TellsTheWord,
    /// The fill stands behind the frame.
    FillBehindTheFrame,
    /// The header is part of the word.
    HeaderInTheWord,
    /// The header is written with its high byte first.
    HeaderTurned,
    /// The check bytes come before the header.
    HeaderLast,
    /// What stands behind the frame is part of the word.
    BufferInTheWord,
    /// 23 by the size of the buffer.
    BufferCounted,
    /// 23 by the size of the content.
    ContentCounted,
    /// 23 before 3.
    LengthBeforeChecks,
    /// 23 before the 1 of a frame that is cut.
    LengthBeforeTheEnd,
    /// 4 before 23 of a frame.
    RoomBeforeLengthOfFrame,
    /// 4 before 3.
    RoomBeforeChecks,
    /// A frame with a wrong check gets correction bytes.
    ChecksNotLookedAt,
    /// 3 without its block.
    BlockNotShown,
    /// One byte of room too little will do.
    RoomOneByteLess,
    /// The row tells the frame's size alone.
    TellsTheFrame,
    /// The bytes behind what is written are cleared.
    ClearsBehindWritten,
    /// The header is read with its high byte first.
    ReadsHighByteFirst,
    /// The third copy is bits 15 to 11.
    ThirdCopyWithBit15,
    /// A header with bit 15 set is of another code.
    Bit15Judged,
    /// Only the first copy is looked at.
    FirstCopyAlone,
    /// All copies must be right.
    NoVote,
    /// One right copy is enough.
    OneCopyIsEnough,
    /// Two copies must be right as a whole.
    VoteOfWholeCopies,
    /// A single byte is of another code.
    OneByteIs24,
    /// Bytes behind the header are refused.
    LongerRefused,
    /// ID 0 will do.
    IdZeroTaken,
}

fn refuse(refusal: Refusal) -> Answer {
    Answer::refused(refusal, 1, 0)
}

/// Check bytes that are not those of this word.
fn wrong_check_bytes(flaw: CorrectionFlaw, word: &[u8]) -> Option<Vec<u8>> {
    let right = Division::RIGHT;
    let turned = |bytes: &[u8]| -> Vec<u8> { bytes.iter().map(|b| b.reverse_bits()).collect() };
    let other = match flaw {
        CorrectionFlaw::RootsFrom111 => Division {
            first: 111,
            ..right
        },
        CorrectionFlaw::RootsWithoutEleven => Division { step: 1, ..right },
        CorrectionFlaw::OtherField => Division {
            field: 0b1_0001_1101,
            ..right
        },
        CorrectionFlaw::BitsTurned => return Some(turned(&right.check_bytes(&turned(word)))),
        CorrectionFlaw::CheckBytesTurned => {
            return Some(right.check_bytes(word).into_iter().rev().collect())
        }
        _ => return None,
    };
    Some(other.check_bytes(word))
}

/// A wrong answer before any check byte is worked out.
fn judged_wrongly(flaw: CorrectionFlaw, word: &[u8], out: &mut [u8]) -> Option<Answer> {
    match flaw {
        CorrectionFlaw::EmptyRefused if word.is_empty() => Some(refuse(Refusal::Ends)),
        CorrectionFlaw::ZerosNotCounted if word.len() == 224 && word[0] == 0 => {
            Some(Second.correction_check_bytes(&word[1..], out))
        }
        CorrectionFlaw::Refuses223 if word.len() == 223 => {
            Some(refuse(Refusal::TooLongForCorrection))
        }
        CorrectionFlaw::RoomBeforeLength if out.len() < 32 => Some(refuse(Refusal::OutputTooSmall)),
        _ => None,
    }
}

/// The same for a frame: what reading it gives, and the sizes that its L promises.
fn frame_judged_wrongly(
    flaw: CorrectionFlaw,
    format: Format,
    bytes: &[u8],
    out: &mut [u8],
) -> Option<Answer> {
    let read = content_of(format, bytes).map(|(_, sizes)| sizes);
    let Sizes { frame, content } = format.sizes(*bytes.first()?).ok()?;
    let wrong_check = matches!(read, Err(Refusal::WrongCheck { .. }));
    let too_long = frame > 223;
    let too_small = out.len() < frame + 34;
    let refusal = match flaw {
        CorrectionFlaw::BufferCounted if read.is_ok() && bytes.len() > 223 => {
            Refusal::TooLongForCorrection
        }
        CorrectionFlaw::LengthBeforeChecks if wrong_check && too_long => {
            Refusal::TooLongForCorrection
        }
        CorrectionFlaw::LengthBeforeTheEnd if bytes.len() < frame && too_long => {
            Refusal::TooLongForCorrection
        }
        CorrectionFlaw::RoomBeforeLengthOfFrame if read.is_ok() && too_long && too_small => {
            Refusal::OutputTooSmall
        }
        CorrectionFlaw::RoomBeforeChecks if wrong_check && too_small => Refusal::OutputTooSmall,
        CorrectionFlaw::BlockNotShown if wrong_check => Refusal::WrongCheck { block: 0 },
        CorrectionFlaw::ContentCounted
            if read.is_ok() && too_long && content <= 223 && !too_small =>
        {
            return Some(Answer::accepted(&[frame as u64 + 34]));
        }
        CorrectionFlaw::ChecksNotLookedAt if wrong_check && !too_long && !too_small => {
            put(&with_correction(&bytes[..frame]), out).unwrap();
            return Some(Answer::accepted(&[frame as u64 + 34]));
        }
        CorrectionFlaw::RoomOneByteLess if read.is_ok() && !too_long && out.len() == frame + 33 => {
            put(&with_correction(&bytes[..frame])[..out.len()], out).unwrap();
            return Some(Answer::accepted(&[frame as u64 + 34]));
        }
        _ => return None,
    };
    Some(refuse(refusal))
}

/// A frame, the header and the check bytes.
fn with_correction(frame: &[u8]) -> Vec<u8> {
    [frame, &[0x21, 0x04], &check_bytes_of(frame).unwrap()].concat()
}

/// What a flaw makes of an accepted frame: a word that is not the frame.
fn wrong_word(flaw: CorrectionFlaw, frame: &[u8], buffer: &[u8]) -> Option<Vec<u8>> {
    let word = match flaw {
        CorrectionFlaw::FillBehindTheFrame => [frame, &vec![0; 223 - frame.len()]].concat(),
        CorrectionFlaw::HeaderInTheWord => [frame, &[0x21, 0x04]].concat(),
        CorrectionFlaw::BufferInTheWord => buffer.to_vec(),
        _ => return None,
    };
    Some(word).filter(|word| word.len() <= 223)
}

impl CorrectionCalls for Broken {
    fn correction_write(&self, format: Format, bytes: &[u8], out: &mut [u8]) -> Answer {
        let Flaw::Correction(flaw) = self.0 else {
            return Second.correction_write(format, bytes, out);
        };
        if let Some(wrong) = frame_judged_wrongly(flaw, format, bytes, out) {
            return wrong;
        }
        let mut answer = Second.correction_write(format, bytes, out);
        if answer.number != 0 {
            return answer;
        }
        let written = answer.row[0] as usize;
        let frame = written - 34;
        if let Some(word) = wrong_word(flaw, &bytes[..frame], bytes) {
            out[frame + 2..written].copy_from_slice(&check_bytes_of(&word).unwrap());
        }
        match flaw {
            CorrectionFlaw::HeaderTurned => out[frame..frame + 2].reverse(),
            CorrectionFlaw::HeaderLast => out[frame..written].rotate_left(2),
            CorrectionFlaw::TellsTheFrame => answer.row[0] = frame as u64,
            CorrectionFlaw::ClearsBehindWritten => out[written..].fill(0),
            _ => {}
        }
        answer
    }

    fn correction_check_bytes(&self, word: &[u8], out: &mut [u8]) -> Answer {
        let Flaw::Correction(flaw) = self.0 else {
            return Second.correction_check_bytes(word, out);
        };
        if let Some(wrong) = judged_wrongly(flaw, word, out) {
            return wrong;
        }
        let mut answer = Second.correction_check_bytes(word, out);
        if flaw == CorrectionFlaw::WritesWhatFits && answer.number == 4 {
            let fits = out.len();
            out.copy_from_slice(&check_bytes_of(word).unwrap()[..fits]);
        }
        if answer.number != 0 {
            return answer;
        }
        if let Some(wrong) = wrong_check_bytes(flaw, word) {
            out[..32].copy_from_slice(&wrong);
        }
        match flaw {
            CorrectionFlaw::ClearsBehind => out[32..].iter_mut().take(1).for_each(|byte| *byte = 0),
            CorrectionFlaw::TellsTheWord => answer.row[0] += word.len() as u64,
            _ => {}
        }
        answer
    }

    fn correction_header(&self, bytes: &[u8]) -> Answer {
        let mut answer = Second.correction_header(bytes);
        if let Flaw::Correction(flaw) = self.0 {
            answer.number = wrong_number(flaw, bytes).unwrap_or(answer.number);
        }
        answer
    }
}

/// The number that a flaw gives to a header instead.
fn wrong_number(flaw: CorrectionFlaw, bytes: &[u8]) -> Option<u64> {
    if flaw == CorrectionFlaw::OneByteIs24 && bytes.len() == 1 {
        return Some(24);
    }
    let &[low, high, ..] = bytes else {
        return None;
    };
    let header = u16::from_le_bytes([low, high]);
    let copies = [header & 31, (header >> 5) & 31, (header >> 10) & 31];
    let right = copies.iter().filter(|&&copy| copy == 1).count();
    let accepted = match flaw {
        CorrectionFlaw::ReadsHighByteFirst => id_of(header.swap_bytes()) == 1,
        CorrectionFlaw::ThirdCopyWithBit15 => id_of((header & 0x3FF) | ((header >> 11) << 10)) == 1,
        CorrectionFlaw::Bit15Judged => id_of(header) == 1 && header < 0x8000,
        CorrectionFlaw::FirstCopyAlone => copies[0] == 1,
        CorrectionFlaw::NoVote => right == 3,
        CorrectionFlaw::OneCopyIsEnough => right > 0,
        CorrectionFlaw::VoteOfWholeCopies => right >= 2,
        CorrectionFlaw::LongerRefused => id_of(header) == 1 && bytes.len() == 2,
        CorrectionFlaw::IdZeroTaken => id_of(header) < 2,
        _ => return None,
    };
    Some(if accepted { 0 } else { 24 })
}

/// Every flaw, and the call in which it must show.
const FLAWS: [(CorrectionFlaw, Operation); 38] = [
    (
        CorrectionFlaw::RootsFrom111,
        Operation::CorrectionCheckBytes,
    ),
    (
        CorrectionFlaw::RootsWithoutEleven,
        Operation::CorrectionCheckBytes,
    ),
    (CorrectionFlaw::OtherField, Operation::CorrectionCheckBytes),
    (CorrectionFlaw::BitsTurned, Operation::CorrectionCheckBytes),
    (
        CorrectionFlaw::CheckBytesTurned,
        Operation::CorrectionCheckBytes,
    ),
    (
        CorrectionFlaw::EmptyRefused,
        Operation::CorrectionCheckBytes,
    ),
    (
        CorrectionFlaw::ZerosNotCounted,
        Operation::CorrectionCheckBytes,
    ),
    (CorrectionFlaw::Refuses223, Operation::CorrectionCheckBytes),
    (
        CorrectionFlaw::RoomBeforeLength,
        Operation::CorrectionCheckBytes,
    ),
    (
        CorrectionFlaw::WritesWhatFits,
        Operation::CorrectionCheckBytes,
    ),
    (
        CorrectionFlaw::ClearsBehind,
        Operation::CorrectionCheckBytes,
    ),
    (
        CorrectionFlaw::TellsTheWord,
        Operation::CorrectionCheckBytes,
    ),
    (
        CorrectionFlaw::FillBehindTheFrame,
        Operation::CorrectionWrite,
    ),
    (CorrectionFlaw::HeaderInTheWord, Operation::CorrectionWrite),
    (CorrectionFlaw::HeaderTurned, Operation::CorrectionWrite),
    (CorrectionFlaw::HeaderLast, Operation::CorrectionWrite),
    (CorrectionFlaw::BufferInTheWord, Operation::CorrectionWrite),
    (CorrectionFlaw::BufferCounted, Operation::CorrectionWrite),
    (CorrectionFlaw::ContentCounted, Operation::CorrectionWrite),
    (
        CorrectionFlaw::LengthBeforeChecks,
        Operation::CorrectionWrite,
    ),
    (
        CorrectionFlaw::LengthBeforeTheEnd,
        Operation::CorrectionWrite,
    ),
    (
        CorrectionFlaw::RoomBeforeLengthOfFrame,
        Operation::CorrectionWrite,
    ),
    (CorrectionFlaw::RoomBeforeChecks, Operation::CorrectionWrite),
    (
        CorrectionFlaw::ChecksNotLookedAt,
        Operation::CorrectionWrite,
    ),
    (CorrectionFlaw::BlockNotShown, Operation::CorrectionWrite),
    (CorrectionFlaw::RoomOneByteLess, Operation::CorrectionWrite),
    (CorrectionFlaw::TellsTheFrame, Operation::CorrectionWrite),
    (
        CorrectionFlaw::ClearsBehindWritten,
        Operation::CorrectionWrite,
    ),
    (
        CorrectionFlaw::ReadsHighByteFirst,
        Operation::CorrectionHeader,
    ),
    (
        CorrectionFlaw::ThirdCopyWithBit15,
        Operation::CorrectionHeader,
    ),
    (CorrectionFlaw::Bit15Judged, Operation::CorrectionHeader),
    (CorrectionFlaw::FirstCopyAlone, Operation::CorrectionHeader),
    (CorrectionFlaw::NoVote, Operation::CorrectionHeader),
    (CorrectionFlaw::OneCopyIsEnough, Operation::CorrectionHeader),
    (
        CorrectionFlaw::VoteOfWholeCopies,
        Operation::CorrectionHeader,
    ),
    (CorrectionFlaw::OneByteIs24, Operation::CorrectionHeader),
    (CorrectionFlaw::LongerRefused, Operation::CorrectionHeader),
    (CorrectionFlaw::IdZeroTaken, Operation::CorrectionHeader),
];

#[test]
fn every_flaw_is_found_in_single_calls() {
    for (flaw, operation) in FLAWS {
        let broken = Broken(Flaw::Correction(flaw));
        let found = compare(&Second, &broken, SEED, COUNT);
        let difference = found.expect_err(&format!("{flaw:?} was not found"));
        assert_eq!(difference.case.operation, operation, "{flaw:?}");
        // From the printed line alone the difference comes up again.
        let again = Case::from_text(&difference.case.to_string()).unwrap();
        assert_ne!(again.run(&Second), again.run(&broken), "{flaw:?}");
    }
}

#[test]
fn every_flaw_is_found_in_the_small_inputs() {
    let inputs = correction_inputs();
    for (flaw, operation) in FLAWS {
        let cases = inputs.iter().filter(|case| case.operation == operation);
        let found = compare_cases(&Second, &Broken(Flaw::Correction(flaw)), cases.cloned());
        assert!(found.is_err(), "{flaw:?} was not found");
    }
}
