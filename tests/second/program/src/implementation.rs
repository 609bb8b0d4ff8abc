//! The form in which implementations are compared: one method per operation,
//! plain numbers and slices in, an `Answer` out, lent memory changed in place.

use crate::answer::{Answer, Refusal};
use crate::channels::{self, QUARTER};
use crate::check;
use crate::chips::{self, Code};
use crate::correction;
use crate::decoding;
use crate::filter::{self, Entries};
use crate::frames::{self, Format, Sizes};
use crate::headers::{self, Header};
use crate::mending;
use crate::radio::{self, Reception};
use crate::reader;
use crate::store::{self, Address, Meter};
use crate::sync::{self, Found, Kind};

/// An implementation of the link layer. Every method is total.
///
/// An answer has the number and the row of results that include/kusikhut.h
/// names for the call: "row" below is that of an accepted answer. The row of a
/// refusal has as many fields, and all are zero but for the one value that some
/// refusals carry, which stands where "refused" says.
pub trait Implementation {
    /// Refusals 10, 1, 6, 4. Row: 0. Refused: 6 the word.
    fn decode(&self, code: Code, chips: &[u8], start: usize, n: usize, out: &mut [u8]) -> Answer;

    /// Refusal 4. Row: bytes written.
    fn encode(&self, code: Code, bytes: &[u8], out: &mut [u8]) -> Answer;

    /// The word at a chip. Refusals 10, 1, 6. Row: the word's value.
    fn word(&self, code: Code, chips: &[u8], at: usize) -> Answer;

    /// Refusals 10, then 7 or 14. Row: place, positions tried. Refused: 7 and 14
    /// the positions tried, in their field.
    fn search(&self, chips: &[u8], start: usize, allowance: usize) -> Answer;

    /// Row: the check.
    fn check(&self, bytes: &[u8]) -> Answer;

    /// Refusal 10. Row: the new check.
    fn check_update(&self, old_check: u16, old_byte: u8, new_byte: u8, distance: usize) -> Answer;

    /// Refusals 1, 2, 1, 3, 4. Row: frame size, n, 0. Refused: 3 the block, in
    /// the last field.
    fn frame_read(&self, format: Format, bytes: &[u8], out: &mut [u8]) -> Answer;

    /// Refusals 5, 4. Row: frame size.
    fn frame_write(&self, format: Format, content: &[u8], out: &mut [u8]) -> Answer;

    /// Refusals 1, 2, 1, 3, 9. Row as for `frame_read`.
    fn frame_change(&self, format: Format, frame: &mut [u8], place: usize, byte: u8) -> Answer;

    /// Refusal 2. Row: frame size.
    fn frame_size(&self, format: Format, length: u8) -> Answer;

    /// Refusals 10; 7 or 14; 1, 8; 1, 6; 2; 1, 6; 3; 4.
    /// Row: kind, place of the sync, positions tried, frame size, n, 0, 0.
    /// Refused: 8 the place and 7, 14 the positions, in their fields; 3 the
    /// block in the last but one, 6 the word in the last.
    fn receive(&self, chips: &[u8], start: usize, allowance: usize, out: &mut [u8]) -> Answer;

    /// Refusals 10; 1, 6; 2; 1, 6; 3; 4.
    /// Row as for `receive`: kind, start, 0, frame size, n, 0, 0.
    fn receive_manchester(&self, chips: &[u8], start: usize, out: &mut [u8]) -> Answer;

    /// Refusals 5, 4. Row: bytes written.
    fn send(&self, kind: Kind, content: &[u8], out: &mut [u8]) -> Answer;

    /// Refusals 12, 11, 12. Row: length, CI, CC, ACC, M2, the six bytes of A2,
    /// SN, the two bytes of PayloadCRC.
    fn header_read(&self, body: &[u8]) -> Answer;

    /// Refusal 4. Row: length.
    fn header_write(&self, header: &Header, out: &mut [u8]) -> Answer;

    /// Row: 0 none, 1 none for now, 2 limited, 3 unlimited.
    fn access(&self, cc: u8) -> Answer;

    /// What M says, or M2. The number is always 0. Row: 1 and the three letters in
    /// ASCII, or four zeros where M has no letters; then 1 if the address is soft, 0
    /// if it is hard.
    fn maker(&self, m: u16) -> Answer;

    /// Refusals 10, 5. Row: 1 wanted, 0 not.
    fn filter(&self, entries: &Entries, count: usize, content: &[u8]) -> Answer;

    /// Row: first centre, spacing, tolerance in quarter kHz; zeros where Table
    /// 21 has no such row.
    fn channel_row(&self, index: usize) -> Answer;

    /// Refusal 13. Row: centre in quarter kHz.
    fn channel_centre(&self, index: usize, channel: usize) -> Answer;

    /// Line `k`, from 0, of the list of the band that an input names. Refusal
    /// 13. Row: index, channel, hertz.
    fn band_line(&self, input: &[u8], k: usize) -> Answer;

    /// What the program `words` prints for this standard input.
    fn words(&self, input: &[u8]) -> Vec<u8>;

    /// The calls of the settings store. None where no memory can be lent to them:
    /// such a store is compared in sequences (`hidden.rs`) and not by cases.
    fn store_calls(&self) -> Option<&dyn StoreCalls>;

    /// The calls of correction bytes.
    fn correction_calls(&self) -> &dyn CorrectionCalls;

    /// The calls of mending.
    fn mending_calls(&self) -> &dyn MendingCalls;
}

/// The calls of correction bytes (11/14).
pub trait CorrectionCalls {
    /// Refusals 1, 2, 1, 3, 23, 4. Row: bytes written. Refused: 3 the block.
    fn correction_write(&self, format: Format, bytes: &[u8], out: &mut [u8]) -> Answer;

    /// Refusals 23, 4. Row: 32.
    fn correction_check_bytes(&self, word: &[u8], out: &mut [u8]) -> Answer;

    /// Refusals 1, 24. The row has no field: the number says all.
    fn correction_header(&self, bytes: &[u8]) -> Answer;
}

/// The calls of mending (12/14). What is received is frame, header and check bytes;
/// what is proposed is frame and check bytes. No refusal has a value.
pub trait MendingCalls {
    /// Refusals 1, 2, 23, 1, 25, 26. Row: how many bytes differ.
    fn take_proposal(&self, format: Format, proposed: &[u8], received: &[u8]) -> Answer;

    /// The proposer of one wrong byte. Refusals 1, 2, 23, 1, 4. Row: bytes written.
    fn propose_one(&self, format: Format, received: &[u8], out: &mut [u8]) -> Answer;

    /// The proposer of up to 16 wrong bytes. Refusals and row as for `propose_one`.
    fn propose(&self, format: Format, received: &[u8], out: &mut [u8]) -> Answer;
}

/// The calls of the settings store (9/14). The caller owns the memory: a store in
/// version 2 of its file, then bytes that mean nothing.
///
/// Every call but `store_empty` first judges the memory: 17, 18, 17. What is said
/// of refusals below comes after that. No refusal has a value.
pub trait StoreCalls {
    /// Refusal 4. Row: the store's bytes.
    fn store_empty(&self, store: &mut [u8]) -> Answer;

    /// Refusals 17, 22. Row: the store's bytes.
    fn store_add(&self, store: &mut [u8], meter: Address, mode: u8, format: u8) -> Answer;

    /// Refusal 19. Row: the store's bytes.
    fn store_hear(&self, store: &mut [u8], meter: Address, number: u32) -> Answer;

    /// Refusals 19, 20, 21. Row: the number.
    fn store_issue(&self, store: &mut [u8], meter: Address) -> Answer;

    /// Refusals: the file's 17, 18, 17; 22. Row: the store's bytes.
    fn store_restore(&self, store: &mut [u8], file: &[u8]) -> Answer;

    /// Refusal 4. Row: bytes written.
    fn store_write(&self, store: &[u8], out: &mut [u8]) -> Answer;

    /// Refusal 19. Row: mode, format, number, 1 if unsure.
    fn store_look_up(&self, store: &[u8], meter: Address) -> Answer;

    /// Row: the allowance.
    fn store_allowance(&self, store: &[u8]) -> Answer;

    /// Row: the store's bytes.
    fn store_set_allowance(&self, store: &mut [u8], allowance: u32) -> Answer;
}

/// The second program.
pub struct Second;

/// An answer from a result, the row of its acceptance, and the field in which
/// its refusals show their value.
fn answer<T, const N: usize>(
    result: Result<T, Refusal>,
    row: impl FnOnce(T) -> [u64; N],
    field: impl FnOnce(Refusal) -> usize,
) -> Answer {
    match result {
        Ok(accepted) => Answer::accepted(&row(accepted)),
        Err(refusal) => Answer::refused(refusal, N, field(refusal)),
    }
}

/// A row of one field: an accepted number, or the refusal's value.
fn one(result: Result<usize, Refusal>) -> Answer {
    answer(result, |number| [number as u64], |_| 0)
}

/// Frame size, n, and the block of refusal 3.
fn frame_row(result: Result<Sizes, Refusal>) -> Answer {
    let accepted = |sizes: Sizes| [sizes.frame as u64, sizes.content as u64, 0];
    answer(result, accepted, |_| 2)
}

/// Kind, place, positions tried, frame size, n, block, word.
fn reception_row(result: Result<Reception, Refusal>) -> Answer {
    let accepted = |reception: Reception| {
        [
            reception.kind as u64,
            reception.place as u64,
            reception.tried as u64,
            reception.sizes.frame as u64,
            reception.sizes.content as u64,
            0,
            0,
        ]
    };
    answer(result, accepted, |refusal| match refusal {
        Refusal::UnknownTail { .. } => 1,
        Refusal::NoSync { .. } | Refusal::AllowanceUsedUp { .. } => 2,
        Refusal::WrongCheck { .. } => 5,
        Refusal::NotACodeWord { .. } => 6,
        // The others have no value to show.
        _ => 0,
    })
}

fn header_row(header: Header) -> [u64; 14] {
    let mut row = [0; 14];
    row[0] = header.kind.length() as u64;
    row[1] = header.kind.ci() as u64;
    row[2] = header.cc as u64;
    row[3] = header.acc as u64;
    row[4] = header.m2 as u64;
    for (field, byte) in row[5..11].iter_mut().zip(header.a2) {
        *field = byte as u64;
    }
    row[11] = header.sn as u64;
    row[12] = header.payload_crc[0] as u64;
    row[13] = header.payload_crc[1] as u64;
    row
}

fn meter_row(meter: Meter) -> [u64; 4] {
    [
        meter.mode as u64,
        meter.format as u64,
        meter.number as u64,
        meter.unsure as u64,
    ]
}

impl Implementation for Second {
    fn decode(&self, code: Code, chips: &[u8], start: usize, n: usize, out: &mut [u8]) -> Answer {
        // The caller named n, so an accepted answer has nothing to add.
        answer(chips::decode(code, chips, start, n, out), |_| [0], |_| 0)
    }

    fn encode(&self, code: Code, bytes: &[u8], out: &mut [u8]) -> Answer {
        one(chips::encode(code, bytes, out))
    }

    fn word(&self, code: Code, chips: &[u8], at: usize) -> Answer {
        one(chips::word(code, chips, at))
    }

    fn search(&self, chips: &[u8], start: usize, allowance: usize) -> Answer {
        let found = sync::search(chips, start, allowance);
        let accepted = |found: Found| [found.place as u64, found.tried as u64];
        answer(found, accepted, |_| 1)
    }

    fn check(&self, bytes: &[u8]) -> Answer {
        Answer::accepted(&[check::check(bytes) as u64])
    }

    fn check_update(&self, old_check: u16, old_byte: u8, new_byte: u8, distance: usize) -> Answer {
        one(check::update(old_check, old_byte, new_byte, distance).map(usize::from))
    }

    fn frame_read(&self, format: Format, bytes: &[u8], out: &mut [u8]) -> Answer {
        frame_row(frames::read(format, bytes, out))
    }

    fn frame_write(&self, format: Format, content: &[u8], out: &mut [u8]) -> Answer {
        one(frames::write(format, content, out))
    }

    fn frame_change(&self, format: Format, frame: &mut [u8], place: usize, byte: u8) -> Answer {
        frame_row(frames::change(format, frame, place, byte))
    }

    fn frame_size(&self, format: Format, length: u8) -> Answer {
        one(format.sizes(length).map(|sizes| sizes.frame))
    }

    fn receive(&self, chips: &[u8], start: usize, allowance: usize, out: &mut [u8]) -> Answer {
        reception_row(radio::receive(chips, start, allowance, out))
    }

    fn receive_manchester(&self, chips: &[u8], start: usize, out: &mut [u8]) -> Answer {
        reception_row(radio::receive_manchester(chips, start, out))
    }

    fn send(&self, kind: Kind, content: &[u8], out: &mut [u8]) -> Answer {
        one(radio::send(kind, content, out))
    }

    fn header_read(&self, body: &[u8]) -> Answer {
        answer(headers::read(body), header_row, |_| 0)
    }

    fn header_write(&self, header: &Header, out: &mut [u8]) -> Answer {
        one(headers::write(header, out))
    }

    fn access(&self, cc: u8) -> Answer {
        Answer::accepted(&[headers::access(cc) as u64])
    }

    fn maker(&self, m: u16) -> Answer {
        let maker = headers::maker(m);
        let mut row = [0; 5];
        // No letters is an answer of its own, not a refusal (01).
        if let Some(letters) = maker.letters {
            row[0] = 1;
            for (field, letter) in row[1..4].iter_mut().zip(letters) {
                *field = letter as u64;
            }
        }
        row[4] = maker.reach as u64;
        Answer::accepted(&row)
    }

    fn filter(&self, entries: &Entries, count: usize, content: &[u8]) -> Answer {
        one(filter::wanted(entries, count, content).map(usize::from))
    }

    fn channel_row(&self, index: usize) -> Answer {
        // 01 asks for a centre by index and channel, and only there knows "no
        // such channel". A row that is not there is nothing: zeros.
        let row = channels::row_of(index).map(|row| [row.first, row.spacing, row.tolerance]);
        Answer::accepted(&row.unwrap_or([0; 3]).map(|hertz| hertz / QUARTER))
    }

    fn channel_centre(&self, index: usize, channel: usize) -> Answer {
        let centre = channels::centre(index, channel);
        answer(centre, |hertz| [hertz / QUARTER], |_| 0)
    }

    fn band_line(&self, input: &[u8], k: usize) -> Answer {
        answer(channels::band_line(input, k), |line| line, |_| 0)
    }

    fn words(&self, input: &[u8]) -> Vec<u8> {
        reader::listing(input).into_bytes()
    }

    fn store_calls(&self) -> Option<&dyn StoreCalls> {
        Some(self)
    }

    fn correction_calls(&self) -> &dyn CorrectionCalls {
        self
    }

    fn mending_calls(&self) -> &dyn MendingCalls {
        self
    }
}

impl CorrectionCalls for Second {
    fn correction_write(&self, format: Format, bytes: &[u8], out: &mut [u8]) -> Answer {
        one(correction::write(format, bytes, out))
    }

    fn correction_check_bytes(&self, word: &[u8], out: &mut [u8]) -> Answer {
        one(correction::check_bytes(word, out))
    }

    fn correction_header(&self, bytes: &[u8]) -> Answer {
        let refused = correction::read_header(bytes).err();
        Answer {
            number: refused.map_or(0, Refusal::number),
            row: Vec::new(),
        }
    }
}

impl MendingCalls for Second {
    fn take_proposal(&self, format: Format, proposed: &[u8], received: &[u8]) -> Answer {
        one(mending::take(format, proposed, received))
    }

    fn propose_one(&self, format: Format, received: &[u8], out: &mut [u8]) -> Answer {
        one(mending::propose_one(format, received, out))
    }

    fn propose(&self, format: Format, received: &[u8], out: &mut [u8]) -> Answer {
        one(decoding::propose(format, received, out))
    }
}

impl StoreCalls for Second {
    fn store_empty(&self, store: &mut [u8]) -> Answer {
        one(store::empty(store))
    }

    fn store_add(&self, store: &mut [u8], meter: Address, mode: u8, format: u8) -> Answer {
        one(store::add(store, meter, mode, format))
    }

    fn store_hear(&self, store: &mut [u8], meter: Address, number: u32) -> Answer {
        one(store::hear(store, meter, number))
    }

    fn store_issue(&self, store: &mut [u8], meter: Address) -> Answer {
        one(store::issue(store, meter).map(|number| number as usize))
    }

    fn store_restore(&self, store: &mut [u8], file: &[u8]) -> Answer {
        one(store::restore(store, file))
    }

    fn store_write(&self, store: &[u8], out: &mut [u8]) -> Answer {
        one(store::write(store, out))
    }

    fn store_look_up(&self, store: &[u8], meter: Address) -> Answer {
        answer(store::look_up(store, meter), meter_row, |_| 0)
    }

    fn store_allowance(&self, store: &[u8]) -> Answer {
        one(store::allowance(store).map(|allowance| allowance as usize))
    }

    fn store_set_allowance(&self, store: &mut [u8], allowance: u32) -> Answer {
        one(store::set_allowance(store, allowance))
    }
}
