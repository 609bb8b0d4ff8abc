//! The safe wrapper in rust/kusikhut, which shows a refusal as its number and value and leaves out what it does not
//! name. Told again as the row that the library gave it, so that both can be compared on the same cases.
use crate::proved::{fenced, Proved, UNWRITTEN};
use kusikhut::{self as library, Refusal};
use second::answer::Answer;
use second::channels::quarters;
use second::chips::Code;
use second::filter::Entries;
use second::frames::Format;
use second::headers::{Header, HeaderKind};
use second::hidden::{Asked, HiddenStore};
use second::implementation::{CorrectionCalls, Implementation, MendingCalls, StoreCalls};
use second::store::{Meter, Mode, Store};
use second::sync::Kind;

pub struct Wrapped;

/// The row of an accepted answer, or of a refusal: its value in the field that `field` gives for its number.
fn answer<T, const N: usize>(
    result: Result<T, Refusal>,
    row: impl FnOnce(T) -> [u64; N],
    field: impl FnOnce(u8) -> usize,
) -> Answer {
    match result {
        Ok(accepted) => Answer::accepted(&row(accepted)),
        Err(refusal) => {
            let mut row = vec![0; N];
            row[field(refusal.number())] = refusal.value().map_or(0, |(_, value)| value);
            Answer { number: refusal.number().into(), row }
        }
    }
}

/// A row of one field.
fn one<T>(result: Result<T, Refusal>, value: impl FnOnce(T) -> u64) -> Answer {
    answer(result, |accepted| [value(accepted)], |_| 0)
}

fn frame(result: Result<library::Frame, Refusal>) -> Answer {
    answer(result, |frame| [frame.size, frame.n, 0], |_| 2)
}

fn reception(result: Result<library::Received, Refusal>) -> Answer {
    let row = |got: library::Received| [kind_number(got.kind), got.place, got.tried, got.size, got.n, 0, 0];
    answer(result, row, |number| match number {
        3 => 5,
        6 => 6,
        8 => 1,
        _ => 2,
    })
}

fn code(code: Code) -> library::Code {
    match code {
        Code::Nrz => library::Code::Nrz,
        Code::ThreeOfSix => library::Code::ThreeOfSix,
        Code::Manchester => library::Code::Manchester,
    }
}

fn format(format: Format) -> library::Format {
    match format {
        Format::A => library::Format::A,
        Format::B => library::Format::B,
    }
}

fn kind(kind: Kind) -> library::Kind {
    match kind {
        Kind::TWithA => library::Kind::TWithA,
        Kind::CWithA => library::Kind::CWithA,
        Kind::CWithB => library::Kind::CWithB,
        Kind::ManchesterWithA => library::Kind::ManchesterWithA,
    }
}

fn kind_number(kind: library::Kind) -> u64 {
    match kind {
        library::Kind::TWithA => Kind::TWithA as u64,
        library::Kind::CWithA => Kind::CWithA as u64,
        library::Kind::CWithB => Kind::CWithB as u64,
        library::Kind::ManchesterWithA => Kind::ManchesterWithA as u64,
    }
}

fn header(h: &Header) -> library::Header {
    let (cc, acc, m2, a2, sn, crc) = (h.cc, h.acc, h.m2, h.a2, h.sn, h.payload_crc);
    match h.kind {
        HeaderKind::Short => library::Header::Plain { cc, acc },
        HeaderKind::Session => library::Header::Secured { cc, acc, sn, crc },
        HeaderKind::Address => library::Header::Addressed { cc, acc, m2, a2 },
        HeaderKind::AddressAndSession => library::Header::AddressedSecured { cc, acc, m2, a2, sn, crc },
    }
}

fn header_row((h, length): (library::Header, u64)) -> [u64; 14] {
    use library::Header::*;
    let (cc, acc, m2, a2, sn, crc) = match h {
        Plain { cc, acc } => (cc, acc, 0, [0; 6], 0, [0; 2]),
        Secured { cc, acc, sn, crc } => (cc, acc, 0, [0; 6], sn, crc),
        Addressed { cc, acc, m2, a2 } => (cc, acc, m2, a2, 0, [0; 2]),
        AddressedSecured { cc, acc, m2, a2, sn, crc } => (cc, acc, m2, a2, sn, crc),
    };
    let [a, b, c, d, e, f] = a2.map(u64::from);
    let [first, last] = crc.map(u64::from);
    [length, h.ci().into(), cc.into(), acc.into(), m2.into(), a, b, c, d, e, f, sn.into(), first, last]
}

fn mode(mode: Mode) -> library::Mode {
    match mode {
        Mode::R => library::Mode::R,
        Mode::S => library::Mode::S,
        Mode::T => library::Mode::T,
        Mode::C => library::Mode::C,
        Mode::N => library::Mode::N,
        Mode::F => library::Mode::F,
    }
}

/// A meter of the wrapper's as the second program has it.
fn meter(m: library::Meter) -> Meter {
    let mode = match m.mode {
        library::Mode::R => Mode::R,
        library::Mode::S => Mode::S,
        library::Mode::T => Mode::T,
        library::Mode::C => Mode::C,
        library::Mode::N => Mode::N,
        library::Mode::F => Mode::F,
    };
    let format = match m.format {
        library::Format::A => Format::A,
        library::Format::B => Format::B,
    };
    Meter { address: m.address, mode, format, number: m.number, unsure: m.unsure }
}

fn meter_row(m: library::Meter) -> [u64; 4] {
    let Meter { mode, format, number, unsure, .. } = meter(m);
    [mode as u64, format as u64, number.into(), unsure.into()]
}

/// A float that is no whole number of quarter kilohertz is shown as one that no row has.
fn whole_quarters(khz: f64) -> u64 {
    quarters(khz).unwrap_or(UNWRITTEN)
}

impl Implementation for Wrapped {
    fn decode(&self, c: Code, chips: &[u8], start: usize, n: usize, out: &mut [u8]) -> Answer {
        one(fenced(out, |out| code(c).decode(chips, start, n, out)), |()| 0)
    }

    fn encode(&self, c: Code, bytes: &[u8], out: &mut [u8]) -> Answer {
        one(fenced(out, |out| code(c).encode(bytes, out)), |size| size)
    }

    fn word(&self, c: Code, chips: &[u8], at: usize) -> Answer {
        one(code(c).word(chips, at), |value| value)
    }

    fn search(&self, chips: &[u8], start: usize, allowance: usize) -> Answer {
        answer(library::search(chips, start, allowance), |found| [found.place, found.tried], |_| 1)
    }

    fn check(&self, bytes: &[u8]) -> Answer {
        Answer::accepted(&[library::check(bytes).into()])
    }

    fn check_update(&self, old_check: u16, old_byte: u8, new_byte: u8, distance: usize) -> Answer {
        one(library::update(old_check, old_byte, new_byte, distance), |check| check.into())
    }

    fn frame_read(&self, f: Format, bytes: &[u8], out: &mut [u8]) -> Answer {
        frame(fenced(out, |out| format(f).read(bytes, out)))
    }

    fn frame_write(&self, f: Format, content: &[u8], out: &mut [u8]) -> Answer {
        one(fenced(out, |out| format(f).write(content, out)), |size| size)
    }

    fn frame_change(&self, f: Format, bytes: &mut [u8], place: usize, byte: u8) -> Answer {
        frame(fenced(bytes, |bytes| format(f).change(bytes, place, byte)))
    }

    fn frame_size(&self, f: Format, length: u8) -> Answer {
        one(format(f).frame_size(length), |size| size)
    }

    fn receive(&self, chips: &[u8], start: usize, allowance: usize, out: &mut [u8]) -> Answer {
        reception(fenced(out, |out| library::receive(chips, start, allowance, out)))
    }

    fn receive_manchester(&self, chips: &[u8], start: usize, out: &mut [u8]) -> Answer {
        reception(fenced(out, |out| library::receive_manchester(chips, start, out)))
    }

    fn send(&self, k: Kind, content: &[u8], out: &mut [u8]) -> Answer {
        one(fenced(out, |out| kind(k).send(content, out)), |bytes| bytes)
    }

    fn header_read(&self, body: &[u8]) -> Answer {
        answer(library::Header::read(body), header_row, |_| 0)
    }

    fn header_write(&self, h: &Header, out: &mut [u8]) -> Answer {
        one(fenced(out, |out| header(h).write(out)), |length| length)
    }

    fn access(&self, cc: u8) -> Answer {
        Answer::accepted(&[match library::access(cc) {
            library::Access::Never => 0,
            library::Access::NotNow => 1,
            library::Access::Limited => 2,
            library::Access::Always => 3,
        }])
    }

    fn maker(&self, m: u16) -> Answer {
        let maker = library::maker(m);
        let soft = match maker.reach {
            library::Reach::Hard => 0,
            library::Reach::Soft => 1,
        };
        let [a, b, c] = maker.letters.unwrap_or_default().map(u64::from);
        Answer::accepted(&[maker.letters.is_some().into(), a, b, c, soft])
    }

    fn filter(&self, entries: &Entries, count: usize, content: &[u8]) -> Answer {
        one(library::wanted(entries, count, content), |yes| yes.into())
    }

    fn channel_row(&self, index: usize) -> Answer {
        let row = library::row(index);
        Answer::accepted(&[row.centre, row.spacing, row.tolerance].map(whole_quarters))
    }

    fn channel_centre(&self, index: usize, channel: usize) -> Answer {
        one(library::centre(index, channel), whole_quarters)
    }

    fn band_line(&self, input: &[u8], k: usize) -> Answer {
        answer(library::band_line(input, k), |line| [line.index, line.channel, line.hertz], |_| 0)
    }

    /// The wrapper has no chip reader.
    fn words(&self, input: &[u8]) -> Vec<u8> {
        Proved.words(input)
    }

    /// The wrapper's store takes no memory from outside: `WrappedStore` is compared in sequences.
    fn store_calls(&self) -> Option<&dyn StoreCalls> {
        None
    }

    fn correction_calls(&self) -> &dyn CorrectionCalls {
        self
    }

    fn mending_calls(&self) -> &dyn MendingCalls {
        self
    }
}

impl CorrectionCalls for Wrapped {
    fn correction_write(&self, f: Format, bytes: &[u8], out: &mut [u8]) -> Answer {
        one(fenced(out, |out| format(f).write_correction(bytes, out)), |size| size)
    }

    fn correction_check_bytes(&self, word: &[u8], out: &mut [u8]) -> Answer {
        one(fenced(out, |out| library::check_bytes(word, out)), |size| size)
    }

    /// The row has no field, and neither of its refusals carries a value.
    fn correction_header(&self, bytes: &[u8]) -> Answer {
        match library::read_correction_header(bytes) {
            Ok(()) => Answer::accepted(&[]),
            Err(refusal) => Answer { number: refusal.number().into(), row: Vec::new() },
        }
    }
}

impl MendingCalls for Wrapped {
    fn take_proposal(&self, f: Format, proposed: &[u8], received: &[u8]) -> Answer {
        one(format(f).judge_proposal(proposed, received), |differing| differing)
    }

    fn propose_one(&self, f: Format, received: &[u8], out: &mut [u8]) -> Answer {
        one(fenced(out, |out| format(f).propose_one(received, out)), |size| size)
    }

    fn propose(&self, f: Format, received: &[u8], out: &mut [u8]) -> Answer {
        one(fenced(out, |out| format(f).propose(received, out)), |size| size)
    }
}

/// The wrapper's settings store. Of a change the wrapper tells no more than its success: the size in the row is that of
/// the store as it is written then.
pub struct WrappedStore(library::Store);

impl WrappedStore {
    pub fn empty() -> WrappedStore {
        WrappedStore(library::Store::empty())
    }

    fn changed(&self, result: Result<(), Refusal>) -> Answer {
        one(result, |()| self.0.bytes().len() as u64)
    }
}

impl HiddenStore for WrappedStore {
    fn answer(&mut self, asked: Asked) -> Answer {
        let WrappedStore(store) = self;
        match asked {
            Asked::Add(meter, m, f) => {
                let added = store.add(meter, mode(m), format(f));
                self.changed(added)
            }
            Asked::Hear(meter, number) => {
                let heard = store.hear(meter, number);
                self.changed(heard)
            }
            Asked::Issue(meter) => one(store.issue(meter), u64::from),
            Asked::Restore(file) => {
                let restored = store.restore(file);
                self.changed(restored)
            }
            Asked::Write(out) => one(fenced(out, |out| store.write(out)), |size| size),
            Asked::LookUp(meter) => answer(store.look_up(meter), meter_row, |_| 0),
            Asked::Allowance => Answer::accepted(&[store.allowance().into()]),
            Asked::SetAllowance(allowance) => {
                store.set_allowance(allowance);
                self.changed(Ok(()))
            }
        }
    }

    fn file(&self) -> Vec<u8> {
        self.0.bytes()
    }

    fn settings(&self) -> Store {
        let held = self.0.settings();
        Store { allowance: held.allowance, meters: held.meters.into_iter().map(meter).collect() }
    }
}
