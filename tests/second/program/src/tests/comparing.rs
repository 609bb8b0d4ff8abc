//! The comparison itself: that its cases reach everything, that they survive
//! being written as text, and that wrong implementations are found out.

use std::collections::BTreeSet;

use super::correction_flaws::CorrectionFlaw;
use super::decoding_flaws::DecodingFlaw;
use super::mending_flaws::MendingFlaw;
use super::store_flaws::StoreFlaw;
use crate::answer::Answer;
use crate::case::{Case, Operation, Outcome};
use crate::check;
use crate::chips::{decode_list, list_of, number_of, Code, THREE_OF_SIX};
use crate::compare::{compare, compare_cases, compare_outcomes, compare_small_inputs};
use crate::filter::Entries;
use crate::frames::Format;
use crate::generator::{
    case, filter_inputs, one_of_each, small_inputs, store_inputs, words_cases, Cases,
};
use crate::headers::Header;
use crate::implementation::{CorrectionCalls, Implementation, MendingCalls, Second, StoreCalls};
use crate::random::Random;
use crate::sync::{search, Kind, SYNC_CHIPS};

pub const SEED: u64 = 20190;
pub const COUNT: u64 = 1500 * Operation::CALLS.len() as u64;

#[test]
fn second_program_agrees_with_itself_and_meets_every_number() {
    let stats = compare(&Second, &Second, SEED, COUNT).unwrap();
    assert_eq!(stats.total(), COUNT);
    for operation in Operation::CALLS {
        let numbers = operation.numbers();
        assert_eq!(stats.numbers(operation), numbers, "{operation:?}");
        for &number in numbers {
            assert!(
                stats.count(operation, number) >= 5,
                "{operation:?} {number}"
            );
        }
    }
    let table = stats.to_string();
    assert_eq!(table.lines().count(), 1 + Operation::CALLS.len() + 1);
    assert!(table.ends_with("54000 cases"));
}

#[test]
fn small_inputs_are_all_there() {
    let stats = compare_small_inputs(&Second, &Second).unwrap();
    assert_eq!(stats.count(Operation::Access, 0), 256);
    assert_eq!(stats.count(Operation::Maker, 0), 65_536);
    assert_eq!(stats.count(Operation::Filter, 0), 8704 + 240 + 585);
    assert_eq!(stats.count(Operation::FrameSize, 0), 246 + 242);
    assert_eq!(stats.count(Operation::ChannelCentre, 0), 103);
    assert_eq!(stats.count(Operation::ChannelRow, 0), 21);
    assert_eq!(stats.count(Operation::BandLine, 0), 2 * 103);
    assert!(stats.cases(Operation::CorrectionHeader) > 65_536);
    let of_the_store = store_inputs().count();
    assert_eq!(stats.total() as usize, small_inputs().len() + of_the_store);
    let of_correction_and_mending = [
        Operation::CorrectionWrite,
        Operation::CorrectionCheckBytes,
        Operation::CorrectionHeader,
        Operation::TakeProposal,
        Operation::ProposeOne,
        Operation::Propose,
    ];
    for operation in Operation::CALLS {
        if operation.of_store() || of_correction_and_mending.contains(&operation) {
            assert_eq!(stats.numbers(operation), operation.numbers());
        }
    }
}

#[test]
fn same_seed_same_cases() {
    let first: Vec<Case> = Cases::new(5).take(200).collect();
    let again: Vec<Case> = Cases::new(5).take(200).collect();
    let other: Vec<Case> = Cases::new(6).take(200).collect();
    assert_eq!(first, again);
    assert_ne!(first, other);
    // The seed 0 is a seed like the others.
    let next = 3 + Operation::CALLS.len();
    assert_ne!(Cases::new(0).nth(3), Cases::new(0).nth(next));
}

#[test]
fn a_case_survives_as_a_line_of_text() {
    for case in Cases::new(11).take(200 * Operation::CALLS.len()) {
        let line = case.to_string();
        assert!(!line.contains('\n'));
        assert_eq!(Case::from_text(&line), Ok(case));
    }
}

#[test]
fn a_line_of_text_is_read_strictly() {
    let line = "check_update old_check=ffff old_byte=0 new_byte=1 distance=0";
    let outcome = Case::from_text(line).unwrap().run(&Second);
    assert_eq!(outcome.answer, Answer::accepted(&[0xC29A]));
    for wrong in [
        "",
        "nothing",
        "access",
        "access cc=",
        "access cc=100",
        "access cc=+1",
        "access cc=1 cc=2",
        "access dd=1",
        "check bytes=1",
        "check bytes=0g",
        "check bytes=é",
        "frame_size format=2 length=0",
        "decode code=3 chips= start=0 n=0 out=",
        "channel_row index=10000000000000000",
        "letters m=443",
        "maker m=10000",
        "filter entries=00 count=0 content=",
        "store_issue store= meter=00",
        "store_hear store= meter=0000000000000000 number=100000000",
        "store_add store= meter=0000000000000000 mode=100 format=0",
        "store_write store=",
        "correction_write format=2 bytes= out=",
        "correction_check_bytes word=0 out=",
        "correction_header bytes= out=",
        "take_proposal format=2 proposed= received=",
        "take_proposal format=0 proposed= received= out=",
        "propose_one format=0 received=",
        "propose_one format=1 received=0 out=",
        "propose format=0 received=",
        "propose format=2 received= out=",
    ] {
        assert!(Case::from_text(wrong).is_err(), "{wrong}");
    }
    let empty = Case::from_text("decode code=0 chips= start=0 n=0 out=").unwrap();
    assert_eq!(empty.run(&Second).answer, Answer::accepted(&[0]));
}

/// Outcomes of many cases of one operation.
pub fn outcomes(operation: Operation, count: usize) -> Vec<(Case, Outcome)> {
    let mut random = Random::new(77);
    (0..count)
        .map(|_| {
            let case = case(&mut random, operation);
            let outcome = case.run(&Second);
            (case, outcome)
        })
        .collect()
}

/// What stands in a field of the rows with one answer number.
fn seen(outcomes: &[(Case, Outcome)], number: u64, field: usize) -> BTreeSet<u64> {
    outcomes
        .iter()
        .filter(|(_, outcome)| outcome.answer.number == number)
        .map(|(_, outcome)| outcome.answer.row[field])
        .collect()
}

#[test]
fn receptions_reach_every_kind_and_many_places() {
    let outcomes = outcomes(Operation::Receive, 4000);
    let kinds = seen(&outcomes, 0, 0);
    assert_eq!(kinds, BTreeSet::from([0, 1, 2]));
    let blocks = seen(&outcomes, 3, 5);
    assert!((1..=10).all(|block| blocks.contains(&block)), "{blocks:?}");
    let words = seen(&outcomes, 6, 6);
    assert!((0..4).all(|word| words.contains(&word)), "{words:?}");
    assert!(words.len() > 50, "{words:?}");
    assert!(seen(&outcomes, 8, 1).len() > 20);
    assert!(seen(&outcomes, 7, 2).contains(&0));
    assert!(seen(&outcomes, 14, 2).contains(&0));
}

/// Every number of chips behind a first sync, from none to the first byte.
#[test]
fn chips_end_everywhere_behind_a_sync() {
    let mut left = BTreeSet::new();
    for (case, outcome) in outcomes(Operation::Receive, 6000) {
        let chips = case.bytes("chips");
        let start = case.number("start") as usize;
        if outcome.answer.number == 1 {
            let found = search(chips, start, usize::MAX).unwrap();
            left.insert(8 * chips.len() - found.place - SYNC_CHIPS);
        }
    }
    assert!((0..=23).all(|chips| left.contains(&chips)), "{left:?}");
}

#[test]
fn frames_reach_every_block() {
    let outcomes = outcomes(Operation::FrameRead, 4000);
    assert_eq!(seen(&outcomes, 3, 2), (1..=17).collect());
    let of_b = outcomes
        .into_iter()
        .filter(|(case, _)| case.number("format") == 1);
    assert_eq!(
        seen(&of_b.collect::<Vec<_>>(), 3, 2),
        BTreeSet::from([1, 2])
    );
}

#[test]
fn edges_of_the_buffers_are_met() {
    let mut lengths = BTreeSet::new();
    let mut starts = BTreeSet::new();
    for (case, _) in outcomes(Operation::ReceiveManchester, 3000) {
        let count = 8 * case.bytes("chips").len() as u64;
        lengths.insert(case.bytes("chips").len());
        starts.insert(case.number("start").saturating_sub(count).min(2));
    }
    assert!([0, 1024, 1025]
        .iter()
        .all(|length| lengths.contains(length)));
    assert_eq!(starts, BTreeSet::from([0, 1, 2]));

    // Accepted up to the last chip of the longest buffer.
    let longest = outcomes(Operation::ReceiveManchester, 3000)
        .into_iter()
        .any(|(case, outcome)| {
            let row = outcome.answer.row;
            outcome.answer.number == 0
                && case.bytes("chips").len() == 1024
                && row[1] + 16 * row[3] == 8192
        });
    assert!(longest);
}

#[test]
fn edges_of_the_outputs_are_met() {
    // The field of the row that has the result's size; decoding has none, since
    // the caller names it.
    for (operation, field) in [
        (Operation::Decode, None),
        (Operation::Encode, Some(0)),
        (Operation::FrameRead, Some(1)),
        (Operation::FrameWrite, Some(0)),
        (Operation::CorrectionWrite, Some(0)),
        (Operation::CorrectionCheckBytes, Some(0)),
        (Operation::ProposeOne, Some(0)),
        (Operation::Propose, Some(0)),
        (Operation::Receive, Some(4)),
        (Operation::ReceiveManchester, Some(4)),
        (Operation::Send, Some(0)),
        (Operation::HeaderWrite, Some(0)),
        (Operation::StoreWrite, Some(0)),
    ] {
        let outcomes = outcomes(operation, 2000);
        // How much longer than its result an accepted output was.
        let spare: BTreeSet<u64> = outcomes
            .iter()
            .filter(|(_, outcome)| outcome.answer.number == 0)
            .map(|(case, outcome)| {
                let size = match field {
                    Some(field) => outcome.answer.row[field],
                    None => case.number("n"),
                };
                case.bytes("out").len() as u64 - size
            })
            .collect();
        assert!(spare.contains(&0) && spare.contains(&1), "{operation:?}");
        assert!(spare.iter().any(|&spare| spare > 8), "{operation:?}");
        let empty = outcomes
            .iter()
            .any(|(case, outcome)| outcome.answer.number == 4 && case.bytes("out").is_empty());
        assert!(empty, "{operation:?}");
    }
}

/// First, middle or last of the entries in use: 0, 1 or 2.
fn part(place: usize, count: usize) -> usize {
    match place {
        0 => 0,
        place if place + 1 == count => 2,
        _ => 1,
    }
}

/// Whether the content is soft; the part in which an entry stands that differs in the
/// top bit of M alone; the part of the equal one, if there is one. None for all other
/// cases of the filter.
fn hard_and_soft(case: &Case) -> Option<(bool, usize, Option<usize>)> {
    let count = case.number("count") as usize;
    let heard = case.bytes("content").get(1..9)?;
    if !(3..=16).contains(&count) {
        return None;
    }
    let mut in_use = case.bytes("entries").chunks(8).take(count);
    let equal = in_use.clone().position(|entry| entry == heard);
    let almost = in_use.position(|entry| entry != heard && alike(entry, heard))?;
    let soft = heard[1] >= 0x80;
    let equal = equal.map(|place| part(place, count));
    Some((soft, part(almost, count), equal))
}

/// Both ways, with either entry in the first place in use, in the middle and in the
/// last, and without the equal one: seeded, and in the small inputs.
#[test]
fn filters_meet_hard_beside_soft() {
    let mut random = Random::new(77);
    let seeded = (0..10_000).map(|_| case(&mut random, Operation::Filter));
    for cases in [seeded.collect(), filter_inputs()] {
        let met: Vec<_> = cases.iter().filter_map(hard_and_soft).collect();
        for soft in [false, true] {
            for almost in 0..3 {
                for equal in [None, Some(0), Some(1), Some(2)] {
                    let one = (soft, almost, equal);
                    let count = met.iter().filter(|&&other| other == one).count();
                    // There is but one first place, and one last.
                    let free = equal != Some(almost) || almost == 1;
                    assert!(!free || count >= 10, "{one:?} {count}");
                }
            }
        }
    }
}

// -------------------------------------------------------- wrong on purpose

/// Ways to be wrong: the errors that document 01 tells of, and some that are
/// harder to see.
#[derive(Clone, Copy, Debug, PartialEq)]
pub enum Flaw {
    None,
    /// Error 1: A counts its checks in L, so another size follows.
    ChecksCountedInA,
    /// Error 2: words 21 and 42 accepted.
    Words21And42,
    /// Error 3: the register starts at FFFFh.
    RegisterStartsAtOnes,
    /// Error 5: distance from the start of a full block of 16.
    DistanceFromStart,
    /// One position too many.
    TriedOneMore,
    /// 7 where 14 is due.
    NoAllowance,
    /// Refusal 6 of one word shows which word of the buffer it was.
    WordShown,
    /// An accepted read also clears the byte behind its result.
    WritesBehind,
    /// A refused read has already written.
    WritesWhenRefused,
    /// A change in format B that only does its work in block 1.
    ChangesFirstBlockOnly,
    /// A refused change has already changed the byte.
    ChangesWhenRefused,
    /// Blocks behind the first are counted one too low.
    BlockOffByOne,
    /// The count of positions tried is given beside refusal 8.
    ValueBesideRefusal,
    /// Words are counted from the rest of the frame.
    WordsFromTheRest,
    /// n × chips a byte wraps around.
    ProductWraps,
    /// 1,025 bytes accepted.
    LongerBuffer,
    /// Unused chips keep what stood there.
    UnusedChipsStay,
    /// SN highest byte first.
    SnHighestFirst,
    /// No letters with the top bit set.
    LettersByThePage,
    /// Soft only where there are letters.
    SoftWithLettersOnly,
    /// Hard or soft by bit 7 of M: the top bit of its first byte.
    SoftByTheFirstByte,
    /// Hard and soft exchanged.
    HardAndSoftExchanged,
    /// No address is soft.
    AlwaysHard,
    /// The entry behind the count is looked at.
    EntryBehindTheCount,
    /// M is compared without its top bit.
    FilterWithoutTopBit,
    /// The first entry that is equal but for the top bit of M decides alone.
    FirstAlikeDecides,
    /// Tolerance of row 7 as of rows 1, 5 and 10.
    ToleranceOfRow7,
    /// One channel too many.
    ChannelTooMany,
    /// Carriage return before the line feed accepted.
    CarriageReturn,
    /// L = 128 accepted in B.
    EmptyLastBlock,
    /// Bits 7 and 2 the wrong way round.
    AccessBits,
    /// Distance 126 accepted.
    Distance126,
    /// PayloadCRC's two bytes turned round.
    CrcTurned,
    /// Sends the C with B tail for C with A.
    TailOfB,
    /// Manchester's two words changed over.
    ManchesterTurned,
    /// A content of nine bytes accepted.
    ShorterContent,
    /// The reader's place moves at refusal 6.
    ReaderMoves,
    /// The reader's place moves at refusal 1.
    ReaderGoesToTheEnd,
    /// A reader that is not made shows the start that it was given.
    ReaderKeepsStart,
    /// A reader that is not made, asked again, says that the chips end.
    ReaderSaysShort,
    /// A start at the chip count is refused.
    ReaderRefusesTheEnd,
    /// 1,025 bytes are read as 1,024.
    ReaderTakesMore,
    /// A start beyond 65,535 is cut to its lower bits.
    ReaderStartIsCut,
    /// Refusal 6 shows how many words came before.
    ReaderWordCounted,
    /// Wrong in a call of the settings store.
    Store(StoreFlaw),
    /// Wrong in a call of correction bytes.
    Correction(CorrectionFlaw),
    /// Wrong in a call of mending.
    Mending(MendingFlaw),
    Decoding(DecodingFlaw),
}

/// The second program with one flaw. Its calls of the settings store stand in
/// `store_flaws.rs`, those of correction bytes in `correction_flaws.rs`, those of
/// mending in `mending_flaws.rs`.
pub struct Broken(pub Flaw);

impl Broken {
    fn has(&self, flaw: Flaw) -> bool {
        self.0 == flaw
    }
}

impl Implementation for Broken {
    fn decode(&self, code: Code, chips: &[u8], start: usize, n: usize, out: &mut [u8]) -> Answer {
        let mut n = n;
        if self.has(Flaw::ProductWraps) {
            n = n.wrapping_mul(code.chips_in_a_byte()) / code.chips_in_a_byte();
        }
        let mut answer = Second.decode(code, chips, start, n, out);
        if self.has(Flaw::Words21And42) && code == Code::ThreeOfSix && answer.number == 6 {
            // As if the first wrong word were right when it has three ones.
            let place = start + 6 * answer.row[0] as usize;
            let word = number_of(&list_of(chips)[place..place + 6]);
            if word == 21 || word == 42 {
                answer = Answer::accepted(&[0]);
            }
        }
        if self.has(Flaw::LongerBuffer) && chips.len() == 1025 && start <= 8200 {
            if let Ok(bytes) = decode_list(code, &list_of(chips)[start..], n) {
                if bytes.len() <= out.len() {
                    out[..bytes.len()].copy_from_slice(&bytes);
                    return Answer::accepted(&[0]);
                }
            }
        }
        answer
    }

    fn encode(&self, code: Code, bytes: &[u8], out: &mut [u8]) -> Answer {
        let before = out.to_vec();
        let answer = Second.encode(code, bytes, out);
        let used = bytes.len() * code.chips_in_a_byte() % 8;
        if self.has(Flaw::UnusedChipsStay) && answer.number == 0 && used != 0 {
            let last = answer.row[0] as usize - 1;
            out[last] |= before[last] & (0xFF >> used);
        }
        if self.has(Flaw::ManchesterTurned) && answer.number == 0 && code == Code::Manchester {
            for byte in &mut out[..answer.row[0] as usize] {
                *byte = !*byte;
            }
        }
        answer
    }

    fn word(&self, code: Code, chips: &[u8], at: usize) -> Answer {
        let mut answer = Second.word(code, chips, at);
        if self.has(Flaw::WordShown) && answer.number == 6 {
            answer.row[0] = (at / code.chips_in_a_word()) as u64;
        }
        answer
    }

    fn search(&self, chips: &[u8], start: usize, allowance: usize) -> Answer {
        let mut answer = Second.search(chips, start, allowance);
        if self.has(Flaw::TriedOneMore) && answer.number == 0 {
            answer.row[1] += 1;
        }
        if self.has(Flaw::NoAllowance) && answer.number == 14 {
            answer.number = 7;
        }
        answer
    }

    fn check(&self, bytes: &[u8]) -> Answer {
        if self.has(Flaw::RegisterStartsAtOnes) {
            // Ones in the register are ones added to the first two bytes.
            let mut turned = bytes.to_vec();
            for byte in turned.iter_mut().take(2) {
                *byte = !*byte;
            }
            return Answer::accepted(&[check::check(&turned) as u64]);
        }
        Second.check(bytes)
    }

    fn check_update(&self, old_check: u16, old_byte: u8, new_byte: u8, distance: usize) -> Answer {
        let mut distance = distance;
        if self.has(Flaw::DistanceFromStart) && distance < 16 {
            distance = 15 - distance;
        }
        if self.has(Flaw::Distance126) && distance == 126 {
            distance = 125;
        }
        Second.check_update(old_check, old_byte, new_byte, distance)
    }

    fn frame_read(&self, format: Format, bytes: &[u8], out: &mut [u8]) -> Answer {
        let mut answer = Second.frame_read(format, bytes, out);
        if self.has(Flaw::WritesBehind) && answer.number == 0 {
            if let Some(behind) = out.get_mut(answer.row[1] as usize) {
                *behind = 0;
            }
        }
        if self.has(Flaw::WritesWhenRefused) && answer.number == 3 && !out.is_empty() {
            out[0] = bytes[1];
        }
        if self.has(Flaw::BlockOffByOne) && answer.number == 3 && answer.row[2] > 1 {
            answer.row[2] -= 1;
        }
        answer
    }

    fn frame_write(&self, format: Format, content: &[u8], out: &mut [u8]) -> Answer {
        if self.has(Flaw::ShorterContent) && content.len() == 9 && out.len() > 20 {
            return Answer::accepted(&[12]);
        }
        Second.frame_write(format, content, out)
    }

    fn frame_change(&self, format: Format, frame: &mut [u8], place: usize, byte: u8) -> Answer {
        let before = frame.to_vec();
        let answer = Second.frame_change(format, frame, place, byte);
        if self.has(Flaw::ChangesFirstBlockOnly) && format == Format::B && place >= 125 {
            frame.copy_from_slice(&before);
        }
        if self.has(Flaw::ChangesWhenRefused) && answer.number == 3 {
            if let Some(old) = place.checked_add(1).and_then(|place| frame.get_mut(place)) {
                *old = byte;
            }
        }
        answer
    }

    fn frame_size(&self, format: Format, length: u8) -> Answer {
        if self.has(Flaw::ChecksCountedInA) && format == Format::A && length >= 12 {
            return Answer::accepted(&[length as u64 + 1]);
        }
        if self.has(Flaw::EmptyLastBlock) && format == Format::B && length == 129 {
            return Answer::accepted(&[130]);
        }
        Second.frame_size(format, length)
    }

    fn receive(&self, chips: &[u8], start: usize, allowance: usize, out: &mut [u8]) -> Answer {
        let mut answer = Second.receive(chips, start, allowance, out);
        if self.has(Flaw::ValueBesideRefusal) && answer.number == 8 {
            answer.row[2] = answer.row[1] - start as u64 + 1;
        }
        answer
    }

    fn receive_manchester(&self, chips: &[u8], start: usize, out: &mut [u8]) -> Answer {
        let mut answer = Second.receive_manchester(chips, start, out);
        if self.has(Flaw::WordsFromTheRest) && answer.number == 6 && answer.row[6] >= 8 {
            answer.row[6] -= 8;
        }
        answer
    }

    fn send(&self, kind: Kind, content: &[u8], out: &mut [u8]) -> Answer {
        let answer = Second.send(kind, content, out);
        if self.has(Flaw::TailOfB) && kind == Kind::CWithA && answer.number == 0 {
            out[3] = 0x3D;
        }
        answer
    }

    fn header_read(&self, body: &[u8]) -> Answer {
        let mut answer = Second.header_read(body);
        if self.has(Flaw::SnHighestFirst) {
            answer.row[11] = (answer.row[11] as u32).swap_bytes() as u64;
        }
        answer
    }

    fn header_write(&self, header: &Header, out: &mut [u8]) -> Answer {
        let mut header = *header;
        if self.has(Flaw::CrcTurned) {
            header.payload_crc.reverse();
        }
        Second.header_write(&header, out)
    }

    fn access(&self, cc: u8) -> Answer {
        let mut answer = Second.access(cc);
        if self.has(Flaw::AccessBits) {
            answer.row[0] = [0, 2, 1, 3][answer.row[0] as usize];
        }
        answer
    }

    fn maker(&self, m: u16) -> Answer {
        let mut answer = Second.maker(m);
        let row = &mut answer.row;
        match self.0 {
            Flaw::LettersByThePage if m >= 0x8000 => row[..4].fill(0),
            Flaw::SoftWithLettersOnly => row[4] *= row[0],
            Flaw::SoftByTheFirstByte => row[4] = (m.to_le_bytes()[0] >> 7) as u64,
            Flaw::HardAndSoftExchanged => row[4] = 1 - row[4],
            Flaw::AlwaysHard => row[4] = 0,
            _ => {}
        }
        answer
    }

    fn filter(&self, entries: &Entries, count: usize, content: &[u8]) -> Answer {
        let count = match count {
            0..=15 if self.has(Flaw::EntryBehindTheCount) => count + 1,
            _ => count,
        };
        let mut answer = Second.filter(entries, count, content);
        if answer.number == 0 {
            let mut in_use = entries[..count].iter();
            if self.has(Flaw::FilterWithoutTopBit) {
                let any = in_use.any(|entry| alike(entry, &content[1..9]));
                answer.row[0] = any as u64;
            } else if self.has(Flaw::FirstAlikeDecides) {
                let first = in_use.find(|entry| alike(*entry, &content[1..9]));
                answer.row[0] = first.is_some_and(|entry| entry[..] == content[1..9]) as u64;
            }
        }
        answer
    }

    fn channel_row(&self, index: usize) -> Answer {
        let mut answer = Second.channel_row(index);
        if self.has(Flaw::ToleranceOfRow7) && index == 7 {
            answer.row[2] = 8;
        }
        answer
    }

    fn channel_centre(&self, index: usize, channel: usize) -> Answer {
        if self.has(Flaw::ChannelTooMany) && index == 13 && channel == 4 {
            return Answer::accepted(&[679_300]);
        }
        Second.channel_centre(index, channel)
    }

    fn band_line(&self, input: &[u8], k: usize) -> Answer {
        if self.has(Flaw::CarriageReturn) && input == b"A\r\n" {
            return Second.band_line(b"A", k);
        }
        Second.band_line(input, k)
    }

    fn words(&self, input: &[u8]) -> Vec<u8> {
        let text = String::from_utf8(Second.words(input)).unwrap();
        if input.len() < 9 || text == "no such reader\n" {
            return text.into_bytes();
        }
        let start = u64::from_be_bytes(input[1..9].try_into().unwrap());
        let chips = &input[9..];
        let closed = "\n10 0 0\n";
        let changed = match self.0 {
            Flaw::ReaderMoves => with_last_place(&text, "6", 6),
            Flaw::ReaderGoesToTheEnd => with_last_place(&text, "1", 1),
            Flaw::ReaderKeepsStart => text.replace(closed, &format!("\n10 {start} 0\n")),
            Flaw::ReaderSaysShort => text.replace("\n10 0 0\n10 0 0\n", "\n10 0 0\n1 0 0\n"),
            Flaw::ReaderRefusesTheEnd if start == 8 * chips.len() as u64 => {
                text.replace(&format!("\n1 {start} 0\n"), closed)
            }
            Flaw::ReaderTakesMore if chips.len() == 1025 => {
                return Second.words(&input[..input.len() - 1]);
            }
            Flaw::ReaderStartIsCut => {
                let cut = [&input[..1], &[0; 6], &input[7..]].concat();
                return Second.words(&cut);
            }
            Flaw::ReaderWordCounted => {
                let words = text.matches("\n0 ").count();
                with_last_value(&text, "6", words)
            }
            _ => text,
        };
        changed.into_bytes()
    }

    fn store_calls(&self) -> Option<&dyn StoreCalls> {
        Some(self)
    }

    fn correction_calls(&self) -> &dyn CorrectionCalls {
        self
    }

    fn mending_calls(&self) -> &dyn MendingCalls {
        self
    }
}

/// Equal but for the top bit of M, or equal.
fn alike(entry: &[u8], heard: &[u8]) -> bool {
    entry[0] == heard[0] && entry[1] % 128 == heard[1] % 128 && entry[2..] == heard[2..]
}

/// The last lines that begin with a number, their place moved on.
fn with_last_place(text: &str, number: &str, on: usize) -> String {
    lines_with(text, number, |place, value| (place + on, value))
}

/// The last lines that begin with a number, with another value.
fn with_last_value(text: &str, number: &str, value: usize) -> String {
    lines_with(text, number, |place, _| (place, value))
}

/// A text of `words`, with other places and values in the lines of a number.
fn lines_with(text: &str, number: &str, other: impl Fn(usize, usize) -> (usize, usize)) -> String {
    let mut changed = String::new();
    for line in text.lines() {
        match line.split(' ').collect::<Vec<_>>()[..] {
            [first, place, value] if first == number => {
                let (place, value) = other(place.parse().unwrap(), value.parse().unwrap());
                changed.push_str(&format!("{number} {place} {value}\n"));
            }
            _ => changed.push_str(&format!("{line}\n")),
        }
    }
    changed
}

/// Every flaw, and the operation in which it must show.
const FLAWS: [(Flaw, Operation); 36] = [
    (Flaw::ChecksCountedInA, Operation::FrameSize),
    (Flaw::Words21And42, Operation::Decode),
    (Flaw::RegisterStartsAtOnes, Operation::Check),
    (Flaw::DistanceFromStart, Operation::CheckUpdate),
    (Flaw::TriedOneMore, Operation::Search),
    (Flaw::NoAllowance, Operation::Search),
    (Flaw::WordShown, Operation::Word),
    (Flaw::WritesBehind, Operation::FrameRead),
    (Flaw::WritesWhenRefused, Operation::FrameRead),
    (Flaw::ChangesFirstBlockOnly, Operation::FrameChange),
    (Flaw::ChangesWhenRefused, Operation::FrameChange),
    (Flaw::BlockOffByOne, Operation::FrameRead),
    (Flaw::ValueBesideRefusal, Operation::Receive),
    (Flaw::WordsFromTheRest, Operation::ReceiveManchester),
    (Flaw::ProductWraps, Operation::Decode),
    (Flaw::LongerBuffer, Operation::Decode),
    (Flaw::UnusedChipsStay, Operation::Encode),
    (Flaw::SnHighestFirst, Operation::HeaderRead),
    (Flaw::LettersByThePage, Operation::Maker),
    (Flaw::SoftWithLettersOnly, Operation::Maker),
    (Flaw::SoftByTheFirstByte, Operation::Maker),
    (Flaw::HardAndSoftExchanged, Operation::Maker),
    (Flaw::AlwaysHard, Operation::Maker),
    (Flaw::EntryBehindTheCount, Operation::Filter),
    (Flaw::FilterWithoutTopBit, Operation::Filter),
    (Flaw::FirstAlikeDecides, Operation::Filter),
    (Flaw::ToleranceOfRow7, Operation::ChannelRow),
    (Flaw::ChannelTooMany, Operation::ChannelCentre),
    (Flaw::CarriageReturn, Operation::BandLine),
    (Flaw::EmptyLastBlock, Operation::FrameSize),
    (Flaw::AccessBits, Operation::Access),
    (Flaw::Distance126, Operation::CheckUpdate),
    (Flaw::CrcTurned, Operation::HeaderWrite),
    (Flaw::TailOfB, Operation::Send),
    (Flaw::ManchesterTurned, Operation::Encode),
    (Flaw::ShorterContent, Operation::FrameWrite),
];

#[test]
fn every_flaw_is_found() {
    assert!(compare(&Second, &Broken(Flaw::None), SEED, 3000).is_ok());
    for (flaw, operation) in FLAWS {
        let found = compare(&Second, &Broken(flaw), SEED, COUNT);
        let difference = found.expect_err(&format!("{flaw:?} was not found"));
        assert_eq!(difference.case.operation, operation, "{flaw:?}");
        // From the printed line alone the difference comes up again.
        let again = Case::from_text(&difference.case.to_string()).unwrap();
        assert_eq!(again.run(&Second), difference.first, "{flaw:?}");
        assert_eq!(again.run(&Broken(flaw)), difference.second, "{flaw:?}");
        assert_ne!(difference.first, difference.second, "{flaw:?}");
        assert!(difference.to_string().contains(operation.name()));
    }
}

/// Every flaw of what M says and of the filter, without chance.
#[test]
fn every_flaw_of_makers_and_filter_is_found_in_the_small_inputs() {
    let inputs = small_inputs();
    let calls = [Operation::Maker, Operation::Filter];
    let flaws = || FLAWS.into_iter().filter(|(_, call)| calls.contains(call));
    assert_eq!(flaws().count(), 8);
    for (flaw, operation) in flaws() {
        let cases = inputs.iter().filter(|case| case.operation == operation);
        let found = compare_cases(&Second, &Broken(flaw), cases.cloned());
        assert!(found.is_err(), "{flaw:?} was not found");
    }
}

/// Every flaw of a chip reader, on the cases that the real one is run on.
#[test]
fn every_flaw_of_the_reader_is_found() {
    let flaws = [
        Flaw::ReaderMoves,
        Flaw::ReaderGoesToTheEnd,
        Flaw::ReaderKeepsStart,
        Flaw::ReaderSaysShort,
        Flaw::ReaderRefusesTheEnd,
        Flaw::ReaderTakesMore,
        Flaw::ReaderStartIsCut,
        Flaw::ReaderWordCounted,
    ];
    let cases = || words_cases(SEED, 100);
    let stats = compare_cases(&Second, &Broken(Flaw::None), cases()).unwrap();
    assert_eq!(stats.numbers(Operation::Words), [0, 1, 6, 10]);
    for flaw in flaws {
        let found = compare_cases(&Second, &Broken(flaw), cases());
        assert!(found.is_err(), "{flaw:?} was not found");
    }
}

/// A wrong answer number is found, and one wrong number in any field of any row,
/// beside every answer number that the call gives: the fields that a refusal
/// leaves zero as well.
#[test]
fn every_field_of_every_row_is_compared() {
    let mut fields = 0;
    for operation in Operation::CALLS {
        for (number, case) in one_of_each(operation, operation.numbers(), &Second) {
            let spoiled = |spoil: &dyn Fn(&mut Answer)| {
                let planted = |case: &Case| {
                    let mut outcome = case.run(&Second);
                    spoil(&mut outcome.answer);
                    outcome
                };
                let found = compare_outcomes(|case| case.run(&Second), planted, [case.clone()]);
                found.err().map(|difference| difference.first.answer.number)
            };
            let found = spoiled(&|answer| answer.number += 1);
            assert_eq!(found, Some(number), "{operation:?}");
            for field in 0..case.run(&Second).answer.row.len() {
                let found = spoiled(&|answer| answer.row[field] += 1);
                assert_eq!(found, Some(number), "{operation:?} {field}");
                fields += 1;
            }
        }
    }
    assert_eq!(fields, 314);
}

#[test]
fn every_three_of_six_word_is_met() {
    // All sixteen code words, and the four others that have three ones.
    let mut known = BTreeSet::new();
    let mut refused = BTreeSet::new();
    for (case, outcome) in outcomes(Operation::Word, 4000) {
        if case.number("code") != 2 || ![0, 6].contains(&outcome.answer.number) {
            continue;
        }
        let at = case.number("at") as usize;
        let word = number_of(&list_of(case.bytes("chips"))[at..at + 6]);
        if outcome.answer.number == 0 {
            known.insert(word);
        } else {
            refused.insert(word);
        }
    }
    assert_eq!(known, THREE_OF_SIX.into_iter().collect());
    assert!([7, 21, 42, 56].iter().all(|word| refused.contains(word)));
}
