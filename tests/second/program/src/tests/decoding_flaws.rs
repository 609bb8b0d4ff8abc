//! Proposers of up to 16 wrong bytes that are wrong on purpose: the comparison must
//! notice each, in the cases from a seed and in the small inputs.

use super::comparing::{Broken, Flaw, COUNT, SEED};
use super::decoding::Massey;
use super::mending_flaws::{self, places_that_differ, size_by, without_header, MendingFlaw};
use crate::answer::Answer;
use crate::case::{Case, Operation};
use crate::compare::{compare, compare_cases};
use crate::frames::Format;
use crate::generator::decoding_inputs;
use crate::implementation::{MendingCalls, Second};
use crate::mending::{is_code_word, values_of};
use crate::patterns::compare_patterns;

/// Ways to be wrong with up to 16 wrong bytes.
#[derive(Clone, Copy, Debug, PartialEq)]
pub enum DecodingFlaw {
    /// The same as with a single wrong byte.
    AsForOne(MendingFlaw),

    // In how many bytes are mended.
    /// Only so many.
    MendsUpTo(usize),
    /// 17 as well, of a short word in which the byte behind the length byte is wrong.
    SeventeenMended,
    /// Wrong bytes of the header count among the 16.
    HeaderCounted,
    /// More than one only if they are neighbours.
    NeighboursOnly,

    // In finding them.
    /// Another decoder, of which only right outcomes are proposed.
    With(Massey),
    /// The same, and whatever comes out is proposed.
    NotJudgedWith(Massey),
    /// The byte behind each wrong one is changed in its place.
    PlaceBeside,
    /// A byte is changed where the locator is not 0: the last one.
    OneByteMore,
    /// The value at this root is divided by, so that 0 there is the end.
    GivesUpAtZero(usize),

    // In judging.
    /// Nothing is judged.
    JudgesNothing,
    /// Only the number of differing bytes is.
    JudgesDistance,
    /// Only the number and the length byte are.
    JudgesDistanceAndLength,
    /// The length byte is not: it is mended with the others.
    JudgesNoLength,

    // In what is written.
    /// The check bytes stay as received.
    FrameAloneMended,
    /// The frame stays as received.
    CheckBytesAloneMended,
    /// The byte in this place stays as received.
    ByteLeft(usize),
    /// The last byte does.
    LastByteLeft,
    /// The row tells how many bytes were wrong.
    TellsTheCount,
    /// What is mended is handed out with zeros for check bytes.
    NoCheckBytes,
    /// A frame of 224 bytes is not too long: it is proposed as it is.
    Takes224,
}

/// What came out, if it is right for somebody who judges; else the word.
fn judged(word: &[u8], changed: Vec<u8>, right: impl Fn(&[u8]) -> bool) -> Vec<u8> {
    if right(&changed) {
        changed
    } else {
        word.to_vec()
    }
}

/// A code word 17 bytes away: one that is near when the byte in place 1 is another.
fn seventeen_mended(word: &[u8]) -> Option<Vec<u8>> {
    let with_another = |by| {
        let mut other = word.to_vec();
        other[1] ^= by;
        Massey::RIGHT.proposal(&other)
    };
    let mut proposals = (1..=255).map(with_another);
    proposals.find(|proposal| is_code_word(proposal))
}

/// What a flaw proposes for a word, where this would be right.
fn wrong_proposal(flaw: DecodingFlaw, word: &[u8], header: &[u8], right: &[u8]) -> Vec<u8> {
    let size = word.len();
    let frame = size - 32;
    let places = places_that_differ(word, right);
    let near = |changed: &[u8]| places_that_differ(word, changed).len() <= 16;
    let changed = || Massey::RIGHT.changed(word);
    // The whole word as received, or some of its bytes; the rest as it should be.
    let unless = |left: bool| if left { word.to_vec() } else { right.to_vec() };
    let but_for = |left: &dyn Fn(usize) -> bool| {
        let byte = |place: usize| {
            if left(place) {
                word[place]
            } else {
                right[place]
            }
        };
        (0..size).map(byte).collect()
    };
    match flaw {
        DecodingFlaw::MendsUpTo(most) => unless(places.len() > most),
        DecodingFlaw::SeventeenMended if size < 60 && !is_code_word(right) => {
            seventeen_mended(word).unwrap_or_else(|| right.to_vec())
        }
        DecodingFlaw::HeaderCounted => {
            let of_header = places_that_differ(header, &[0x21, 0x04]).len();
            unless(places.len() + of_header > 16)
        }
        DecodingFlaw::NeighboursOnly => unless(places.windows(2).any(|two| two[1] > two[0] + 1)),
        DecodingFlaw::With(decoder) => decoder.proposal(word),
        DecodingFlaw::NotJudgedWith(decoder) => decoder.changed(word),
        DecodingFlaw::PlaceBeside => {
            let mut beside = word.to_vec();
            for &place in &places {
                beside[(place + 1) % size] ^= word[place] ^ right[place];
            }
            beside
        }
        DecodingFlaw::OneByteMore if !places.is_empty() => {
            [&right[..size - 1], &[right[size - 1] ^ 1]].concat()
        }
        DecodingFlaw::GivesUpAtZero(root) => unless(values_of(word)[root] == 0),
        DecodingFlaw::JudgesNothing => changed(),
        DecodingFlaw::JudgesDistance => judged(word, changed(), near),
        DecodingFlaw::JudgesDistanceAndLength => {
            judged(word, changed(), |other| near(other) && other[0] == word[0])
        }
        DecodingFlaw::JudgesNoLength => {
            judged(word, changed(), |other| near(other) && is_code_word(other))
        }
        DecodingFlaw::FrameAloneMended => but_for(&|place| place >= frame),
        DecodingFlaw::CheckBytesAloneMended => but_for(&|place| place < frame),
        DecodingFlaw::ByteLeft(left) => but_for(&|place| place == left),
        DecodingFlaw::LastByteLeft => but_for(&|place| place == size - 1),
        DecodingFlaw::NoCheckBytes if !places.is_empty() => [&right[..frame], &[0; 32]].concat(),
        _ => right.to_vec(),
    }
}

/// What a flaw makes of the proposer.
pub fn propose_wrongly(
    flaw: DecodingFlaw,
    format: Format,
    received: &[u8],
    out: &mut [u8],
) -> Answer {
    let right = |received: &[u8], out: &mut [u8]| Second.propose(format, received, out);
    if let DecodingFlaw::AsForOne(flaw) = flaw {
        return mending_flaws::propose_wrongly(flaw, format, &right, received, out);
    }
    let mut answer = right(received, out);
    let is_224 = size_by(format, received) == Some(224);
    if flaw == DecodingFlaw::Takes224 && is_224 && received.len() >= 258 && out.len() >= 256 {
        out[..256].copy_from_slice(&without_header(&received[..258], 224));
        return Answer::accepted(&[256]);
    }
    if answer.number != 0 {
        return answer;
    }
    let size = answer.row[0] as usize;
    let frame = size - 32;
    let word = without_header(&received[..size + 2], frame);
    let proposal = wrong_proposal(flaw, &word, &received[frame..frame + 2], &out[..size]);
    if flaw == DecodingFlaw::TellsTheCount {
        answer.row[0] = places_that_differ(&word, &proposal).len() as u64;
    }
    out[..size].copy_from_slice(&proposal);
    answer
}

/// Flaws that the proposer of one wrong byte may have as well.
const AS_FOR_ONE: [MendingFlaw; 20] = [
    MendingFlaw::NeverMends,
    MendingFlaw::SoundFramesOnly,
    MendingFlaw::LengthByteMended,
    MendingFlaw::FillMended,
    MendingFlaw::ZerosElse,
    MendingFlaw::NothingElse,
    MendingFlaw::RefusesElse,
    MendingFlaw::HeaderProposed,
    MendingFlaw::HeaderJudgedByProposer,
    MendingFlaw::ProposesCheckBytesAtTheEnd,
    MendingFlaw::RoomBeforeLength,
    MendingFlaw::RoomBeforeTheEnd,
    MendingFlaw::ProposerEndBeforeLength,
    MendingFlaw::ProposesWithoutHeader,
    MendingFlaw::ProposerRefuses223,
    MendingFlaw::WritesWhatFits,
    MendingFlaw::WritesWhatIsThere,
    MendingFlaw::ClearsBehind,
    MendingFlaw::TellsTheFrame,
    MendingFlaw::FirstContentByteLeft,
];

/// Decoders that are wrong in one number.
fn wrong_decoders() -> Vec<Massey> {
    let right = Massey::RIGHT;
    let mut decoders = Vec::new();
    for j in [111, 113] {
        // Of the values alone, of Forney's formula alone, and of both.
        decoders.push(Massey { first: j, ..right });
        decoders.push(Massey {
            in_forney: j,
            ..right
        });
        decoders.push(Massey {
            first: j,
            in_forney: j,
            ..right
        });
    }
    // Without the factor X^112, or with the roots alpha^0 to alpha^(11 × 31).
    decoders.push(Massey {
        in_forney: 0,
        ..right
    });
    decoders.push(Massey {
        first: 0,
        in_forney: 0,
        ..right
    });
    // The last root is forgotten, or the first one.
    decoders.push(Massey { count: 31, ..right });
    decoders.push(Massey {
        first: 113,
        in_forney: 113,
        count: 31,
        ..right
    });
    decoders.push(Massey {
        of_evaluator: 15,
        ..right
    });
    decoders.push(Massey {
        fill_behind: true,
        ..right
    });
    decoders
}

/// Every flaw.
fn flaws() -> Vec<DecodingFlaw> {
    let mut flaws = vec![
        DecodingFlaw::MendsUpTo(1),
        DecodingFlaw::MendsUpTo(2),
        DecodingFlaw::MendsUpTo(8),
        DecodingFlaw::MendsUpTo(15),
        DecodingFlaw::SeventeenMended,
        DecodingFlaw::HeaderCounted,
        DecodingFlaw::NeighboursOnly,
        DecodingFlaw::PlaceBeside,
        DecodingFlaw::OneByteMore,
        DecodingFlaw::GivesUpAtZero(0),
        DecodingFlaw::GivesUpAtZero(16),
        DecodingFlaw::GivesUpAtZero(31),
        DecodingFlaw::JudgesNothing,
        DecodingFlaw::JudgesDistance,
        DecodingFlaw::JudgesDistanceAndLength,
        DecodingFlaw::JudgesNoLength,
        DecodingFlaw::FrameAloneMended,
        DecodingFlaw::CheckBytesAloneMended,
        DecodingFlaw::ByteLeft(1),
        DecodingFlaw::ByteLeft(8),
        DecodingFlaw::LastByteLeft,
        DecodingFlaw::TellsTheCount,
        DecodingFlaw::NoCheckBytes,
        DecodingFlaw::Takes224,
    ];
    flaws.extend(AS_FOR_ONE.map(DecodingFlaw::AsForOne));
    flaws.extend(wrong_decoders().into_iter().map(DecodingFlaw::With));
    flaws.extend(
        wrong_decoders()
            .into_iter()
            .map(DecodingFlaw::NotJudgedWith),
    );
    flaws
}

#[test]
fn every_flaw_is_found_in_single_calls() {
    for flaw in flaws() {
        let broken = Broken(Flaw::Decoding(flaw));
        let found = compare(&Second, &broken, SEED, COUNT);
        let difference = found.expect_err(&format!("{flaw:?} was not found"));
        assert_eq!(difference.case.operation, Operation::Propose, "{flaw:?}");
        // From the printed line alone the difference comes up again.
        let again = Case::from_text(&difference.case.to_string()).unwrap();
        assert_ne!(again.run(&Second), again.run(&broken), "{flaw:?}");
    }
}

#[test]
fn every_flaw_is_found_in_the_small_inputs() {
    let inputs = decoding_inputs();
    for flaw in flaws() {
        let cases = inputs.iter().cloned();
        let found = compare_cases(&Second, &Broken(Flaw::Decoding(flaw)), cases);
        assert!(found.is_err(), "{flaw:?} was not found");
    }
}

/// A flaw shows in patterns, too, whichever of the two has it. Where both have the same
/// one, only the word that was written can tell.
#[test]
fn patterns_find_flaws() {
    let broken = Broken(Flaw::Decoding(DecodingFlaw::MendsUpTo(15)));
    let nothing_judged = Broken(Flaw::Decoding(DecodingFlaw::JudgesNothing));
    for (one, other) in [
        (&Broken(Flaw::None), &broken),
        (&broken, &Broken(Flaw::None)),
    ] {
        let miss = compare_patterns(one, other, SEED, 1000).unwrap_err();
        assert_eq!((miss.wrong, miss.why), (16, "the two differ"));
        let again = Case::from_text(&miss.call.case.to_string()).unwrap();
        assert_ne!(again.run(one), again.run(other));
        assert!(miss.to_string().contains("propose format="));
    }
    let miss = compare_patterns(&Second, &nothing_judged, SEED, 1000).unwrap_err();
    assert!(miss.wrong > 16);
    let miss = compare_patterns(&broken, &broken, SEED, 1000).unwrap_err();
    assert_eq!(
        (miss.wrong, miss.why),
        (16, "the written word is not proposed")
    );
    assert_eq!(miss.call.first, miss.call.second);
}
