//! That the comparison can fail: something wrong is planted, and must be reported.
mod checks;

use crate::first_line_apart;
use crate::proved::{fenced, shown, told, told_floats, Proved, UNWRITTEN};
use crate::wrapped::WrappedStore;
use second::answer::Answer;
use second::case::{Case, Operation, Outcome};
use second::compare::{compare_outcomes, Difference, Stats};
use second::frames::Format;
use second::generator::{one_of_each, words_cases};
use second::hidden::{compare_hidden, Asked, HiddenStore};
use second::implementation::Second;
use second::sequences::Trouble;
use second::store::{Mode, Store};

/// The library, spoiled, against the second program on one case.
fn planted(case: &Case, spoil: impl Fn(&mut Outcome)) -> Result<(), Difference> {
    let spoiled = |case: &Case| {
        let mut outcome = case.run(&Proved);
        spoil(&mut outcome);
        outcome
    };
    compare_outcomes(spoiled, |case| case.run(&Second), [case.clone()]).map(|_| ())
}

/// The number wrong, or one field of any row of the library, beside any number that the call answers. Beside a refusal
/// nearly all of them are zeros that no value names. The header of correction bytes is read without a row: the number
/// is all that is told.
#[test]
fn every_field_is_compared() {
    let mut fields = 0;
    for operation in Operation::CALLS {
        for (number, case) in one_of_each(operation, operation.numbers(), &Second) {
            assert_eq!(planted(&case, |_| ()), Ok(()));
            let found = planted(&case, |outcome| outcome.answer.number += 1);
            assert!(found.is_err(), "{operation:?} {number}: the number is not compared");
            for field in 0..case.run(&Proved).answer.row.len() {
                let found = planted(&case, |outcome| outcome.answer.row[field] += 1);
                assert!(found.is_err(), "{operation:?} {number}: field {field} is not compared");
                fields += 1;
            }
        }
    }
    assert_eq!(fields, 314);
}

/// A field that a call does not write, and one too many or too few.
#[test]
fn every_result_must_be_written() {
    // Refusal 3 as a careless reader would give it: its block, and nothing to the two fields before it.
    let careless = told(3, |row| {
        unsafe { row.add(2).write(1) };
        3
    });
    assert_eq!((careless.number, &careless.row[..]), (3, &[UNWRITTEN, UNWRITTEN, 1][..]));
    assert_eq!(told_floats(1, |_| 13).row, [UNWRITTEN]);
    // A zero with a sign is not "nothing".
    let signed = told_floats(1, |row| {
        unsafe { row.write(-0.0) };
        13
    });
    assert_eq!(signed.row, [UNWRITTEN]);
    let (_, case) = one_of_each(Operation::FrameRead, &[3], &Second).remove(0);
    assert!(planted(&case, |outcome| outcome.answer.row = careless.row.clone()).is_err());
    assert!(planted(&case, |outcome| outcome.answer.row.push(0)).is_err());
}

#[test]
#[should_panic = "outside of its row"]
fn a_result_too_many_stops_it() {
    told(1, |row| {
        unsafe { row.add(1).write(0) };
        0
    });
}

#[test]
#[should_panic = "outside of its row"]
fn a_float_too_many_stops_it() {
    told_floats(1, |row| {
        unsafe { row.sub(1).write(0.0) };
        0
    });
}

#[test]
#[should_panic = "outside of what it was lent"]
fn a_byte_behind_the_lent_ones_stops_it() {
    fenced(&mut [0; 4], |lent| unsafe { lent.as_mut_ptr().add(4).write(0) });
}

#[test]
#[should_panic = "only shown"]
fn a_byte_of_what_is_only_shown_stops_it() {
    shown(&[0; 4], |bytes, _| unsafe { bytes.cast_mut().write(1) });
}

/// The chip reader's program is run without a chip, with a start that is refused, and on a word; a wrong place in the
/// line that ends each is found.
#[test]
fn the_words_program_is_compared() {
    for case in words_cases(1, 0).into_iter().take(3) {
        assert_eq!(planted(&case, |_| ()), Ok(()));
        let found = planted(&case, |outcome| {
            // the line ends in a place of one digit, a blank, the value and the line feed
            let place = outcome.lent.len() - 4;
            outcome.lent[place] ^= 1;
        });
        assert!(found.is_err(), "{case}");
    }
}

#[test]
fn the_first_line_apart_is_shown() {
    let shown = first_line_apart(b"number place value\n6 12 0\n", b"number place value\n6 18 0\n");
    assert_eq!(shown, "line 2: first: 6 12 0, second: 6 18 0");
    assert_eq!(first_line_apart(b"a\n", b"a\nb\n"), "line 2: first: no line, second: b");
}

/// What a store of the wrapper's shows.
enum Seen<'a> {
    Answer(Operation, &'a mut Answer),
    /// The lent output, beside the number of `write`.
    Output(u64, &'a mut [u8]),
    File(&'a mut Vec<u8>),
    Settings(&'a mut Store),
}

/// Such a store, with something wrong in it.
struct Spoiled<'a> {
    store: WrappedStore,
    spoil: &'a dyn Fn(Seen),
}

impl HiddenStore for Spoiled<'_> {
    fn answer(&mut self, asked: Asked) -> Answer {
        let operation = match asked {
            Asked::Add(..) => Operation::StoreAdd,
            Asked::Hear(..) => Operation::StoreHear,
            Asked::Issue(_) => Operation::StoreIssue,
            Asked::Restore(_) => Operation::StoreRestore,
            Asked::Write(_) => Operation::StoreWrite,
            Asked::LookUp(_) => Operation::StoreLookUp,
            Asked::Allowance => Operation::StoreAllowance,
            Asked::SetAllowance(_) => Operation::StoreSetAllowance,
        };
        let mut answer = match asked {
            Asked::Write(out) => {
                let answer = self.store.answer(Asked::Write(&mut *out));
                (self.spoil)(Seen::Output(answer.number, out));
                answer
            }
            other => self.store.answer(other),
        };
        (self.spoil)(Seen::Answer(operation, &mut answer));
        answer
    }

    fn file(&self) -> Vec<u8> {
        let mut file = self.store.file();
        (self.spoil)(Seen::File(&mut file));
        file
    }

    fn settings(&self) -> Store {
        let mut settings = self.store.settings();
        (self.spoil)(Seen::Settings(&mut settings));
        settings
    }
}

/// Spoiled stores of the wrapper's against the second program, in sequences.
fn spoiled(spoil: impl Fn(Seen)) -> Result<Stats, Box<Trouble>> {
    let empty = || Spoiled { store: WrappedStore::empty(), spoil: &spoil };
    compare_hidden(empty, &Second, 1, 60).map_err(Box::new)
}

/// What a call of the wrapper's store answers, spoiled beside one number.
fn spoiled_answer(call: Operation, number: u64, spoil: impl Fn(&mut Answer)) -> Box<Trouble> {
    let found = spoiled(|seen| match seen {
        Seen::Answer(operation, answer) if operation == call && answer.number == number => spoil(answer),
        _ => {}
    });
    found.expect_err(&format!("{call:?} {number} is not compared"))
}

/// A number, or one field wrong, beside any number that the wrapper's store answers.
#[test]
fn every_answer_of_the_wrappers_store_is_compared() {
    let stats = spoiled(|_| ()).expect("nothing is wrong");
    let mut fields = 0;
    for operation in Operation::CALLS.into_iter().filter(|&operation| operation != Operation::StoreEmpty) {
        for number in stats.numbers(operation) {
            let results = if operation == Operation::StoreLookUp { 4 } else { 1 };
            for field in 0..results {
                let trouble = spoiled_answer(operation, number, |answer| answer.row[field] += 1);
                assert_eq!((trouble.call.case.operation, trouble.call.second.answer.number), (operation, number));
                fields += 1;
            }
            let trouble = spoiled_answer(operation, number, |answer| answer.number += 1);
            assert_eq!((trouble.call.case.operation, trouble.call.second.answer.number), (operation, number));
        }
    }
    assert_eq!(fields, 24);
}

/// A byte of the output, the written store, and everything in the list of what it holds.
#[test]
fn all_that_the_wrappers_store_holds_is_compared() {
    for number in [0, 4] {
        let found = spoiled(|seen| match seen {
            Seen::Output(told, [.., last]) if told == number => *last ^= 1,
            _ => {}
        });
        let trouble = found.expect_err("the output is not compared");
        assert_eq!((trouble.call.case.operation, trouble.call.second.answer.number), (Operation::StoreWrite, number));
    }
    let files: [fn(&mut Vec<u8>); 3] =
        [|file| file.push(0), |file| file[5] ^= 1, |file| *file.last_mut().unwrap() ^= 1];
    for wrong in files {
        let found = spoiled(|seen| match seen {
            Seen::File(file) if file.len() > 8 => wrong(file),
            _ => {}
        });
        assert!(found.expect_err("the file is not compared").why.starts_with("the first is written as "));
    }
    let lists: [fn(&mut Store); 8] = [
        |held| held.allowance ^= 1,
        |held| held.meters.rotate_left(1),
        |held| held.meters.truncate(1),
        |held| held.meters[1].address[7] ^= 1,
        |held| held.meters[1].mode = if held.meters[1].mode == Mode::R { Mode::S } else { Mode::R },
        |held| held.meters[1].format = if held.meters[1].format == Format::A { Format::B } else { Format::A },
        |held| held.meters[1].number ^= 1,
        |held| held.meters[1].unsure ^= true,
    ];
    for wrong in lists {
        let found = spoiled(|seen| match seen {
            Seen::Settings(held) if held.meters.len() > 1 => wrong(held),
            _ => {}
        });
        assert!(found.expect_err("the list is not compared").why.starts_with("the first is listed as "));
    }
}
