//! The answer numbers of document 01 and of requests 9/14, 11/14 and 12/14, and
//! the values that come with them.

/// Why an operation refused. Each case carries exactly what 01's table
/// "Answer numbers" returns besides, and nothing else. From 17 on the numbers
/// are those of 9/14, then of 11/14 and 12/14, which name no value beside any of
/// them.
#[derive(Clone, Copy, Debug, PartialEq, Eq)]
pub enum Refusal {
    /// 1: bytes or chips end too early.
    Ends,
    /// 2: L not allowed.
    LengthNotAllowed,
    /// 3: a check is wrong; the first wrong block, from 1.
    WrongCheck { block: usize },
    /// 4: lent output smaller than the result.
    OutputTooSmall,
    /// 5: content length not allowed.
    ContentLength,
    /// 6: not a code word; its place among the call's words, from 0.
    NotACodeWord { word: usize },
    /// 7: every position tried, no sync.
    NoSync { tried: usize },
    /// 8: sync tail unknown; the chip place of the sync.
    UnknownTail { sync: usize },
    /// 9: change place not below n.
    NoSuchPlace,
    /// 10: an argument above its limit.
    OutOfRange,
    /// 11: CI is none of the four.
    UnknownCi,
    /// 12: body shorter than its header, or empty.
    HeaderEnds,
    /// 13: no such channel.
    NoSuchChannel,
    /// 14: allowance used up, positions left, no sync.
    AllowanceUsedUp { tried: usize },
    /// 17: malformed store.
    MalformedStore,
    /// 18: unknown version.
    UnknownVersion,
    /// 19: meter not held.
    MeterNotHeld,
    /// 20: unsure: no number until one is heard.
    Unsure,
    /// 21: numbers used up.
    NumbersUsedUp,
    /// 22: store full.
    StoreFull,
    /// 23: over 223 bytes, too long for correction bytes.
    TooLongForCorrection,
    /// 24: the header of correction bytes has an ID other than 1.
    AnotherCode,
    /// 25: a proposal is not a code word of 11/14.
    NotOfTheCode,
    /// 26: a proposal differs from what was received in over 16 bytes.
    TooManyDiffer,
}

impl Refusal {
    /// The number that the documents give it.
    pub fn number(self) -> u64 {
        match self {
            Refusal::Ends => 1,
            Refusal::LengthNotAllowed => 2,
            Refusal::WrongCheck { .. } => 3,
            Refusal::OutputTooSmall => 4,
            Refusal::ContentLength => 5,
            Refusal::NotACodeWord { .. } => 6,
            Refusal::NoSync { .. } => 7,
            Refusal::UnknownTail { .. } => 8,
            Refusal::NoSuchPlace => 9,
            Refusal::OutOfRange => 10,
            Refusal::UnknownCi => 11,
            Refusal::HeaderEnds => 12,
            Refusal::NoSuchChannel => 13,
            Refusal::AllowanceUsedUp { .. } => 14,
            Refusal::MalformedStore => 17,
            Refusal::UnknownVersion => 18,
            Refusal::MeterNotHeld => 19,
            Refusal::Unsure => 20,
            Refusal::NumbersUsedUp => 21,
            Refusal::StoreFull => 22,
            Refusal::TooLongForCorrection => 23,
            Refusal::AnotherCode => 24,
            Refusal::NotOfTheCode => 25,
            Refusal::TooManyDiffer => 26,
        }
    }

    /// The one value that some refusals return besides; zero for the others,
    /// since "nothing" means zeros.
    pub fn value(self) -> u64 {
        match self {
            Refusal::WrongCheck { block } => block as u64,
            Refusal::NotACodeWord { word } => word as u64,
            Refusal::NoSync { tried } => tried as u64,
            Refusal::UnknownTail { sync } => sync as u64,
            Refusal::AllowanceUsedUp { tried } => tried as u64,
            _ => 0,
        }
    }
}

/// An answer in plain numbers, in the form in which a caller in C gets it
/// (include/kusikhut.h): the number, and the call's row of results, whole. Two
/// implementations agree when number and every field of the row agree.
#[derive(Clone, Debug, PartialEq, Eq)]
pub struct Answer {
    pub number: u64,
    pub row: Vec<u64>,
}

impl Answer {
    /// Number 0 with this row.
    pub fn accepted(row: &[u64]) -> Answer {
        Answer {
            number: 0,
            row: row.to_vec(),
        }
    }

    /// A refusal in a row of so many results: its one value at this place. All
    /// others are zero, since 01 says that "nothing" means zeros, and that
    /// result fields not named for a refusal are zero.
    pub fn refused(refusal: Refusal, results: usize, place: usize) -> Answer {
        let mut row = vec![0; results];
        row[place] = refusal.value();
        Answer {
            number: refusal.number(),
            row,
        }
    }
}
