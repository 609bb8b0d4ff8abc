//! The proved library, called as a program in C calls it: the exported functions themselves and their rows of results,
//! whole. Every row and every lent slice stands between two fences, so that a write outside of it would be seen, and a
//! row holds a number before the call that no answer has, so that a field that is not written would be seen.
use crate::raw;
use second::answer::Answer;
use second::channels::quarters;
use second::chips::Code;
use second::filter::Entries;
use second::frames::Format;
use second::headers::{Header, HeaderKind};
use second::implementation::{CorrectionCalls, Implementation, MendingCalls, StoreCalls};
use second::store::Address;
use second::sync::Kind;
use std::io::Write;
use std::ops::Range;
use std::process::{Command, Stdio};

pub struct Proved;

const GUARD: usize = 32;
const FENCE: u8 = 0xA5;
pub const UNWRITTEN: u64 = 0xA5A5_A5A5_A5A5_A5A5;

/// Runs `call` on a copy of `lent` that stands between two fences, and puts what it left back.
pub fn fenced<T>(lent: &mut [u8], call: impl FnOnce(&mut [u8]) -> T) -> T {
    let end = GUARD + lent.len();
    let mut memory = vec![FENCE; end + GUARD];
    memory[GUARD..end].copy_from_slice(lent);
    let got = call(&mut memory[GUARD..end]);
    let fences = memory[..GUARD].iter().chain(&memory[end..]);
    assert!(fences.copied().all(|byte| byte == FENCE), "the library wrote outside of what it was lent");
    lent.copy_from_slice(&memory[GUARD..end]);
    got
}

/// Shows `call` a copy of `bytes` that stands between two fences: not one of them may change.
pub fn shown<T>(bytes: &[u8], call: impl FnOnce(*const u8, usize) -> T) -> T {
    let mut copy = bytes.to_vec();
    // The pointer may be written to, so that whoever does it is seen.
    let got = fenced(&mut copy, |copy| call(copy.as_mut_ptr(), copy.len()));
    assert!(copy == bytes, "the library wrote into what it was only shown");
    got
}

/// Lends `call` a row of so many results; tells the number that it answered, and the whole row.
pub fn told(results: usize, call: impl FnOnce(*mut u64) -> u8) -> Answer {
    let mut memory = vec![UNWRITTEN; results + 2];
    let number = call(memory.as_mut_ptr().wrapping_add(1)).into();
    let fences = [memory[0], memory[results + 1]];
    assert_eq!(fences, [UNWRITTEN; 2], "the library wrote outside of its row of results");
    Answer { number, row: memory[1..=results].to_vec() }
}

/// The same for a row of floats in kilohertz, told in quarters of one. A float that is no whole number of them, as one
/// that was not written, is told as a number that no row has.
pub fn told_floats(results: usize, call: impl FnOnce(*mut f64) -> u8) -> Answer {
    let mut memory = vec![f64::NAN; results + 2];
    let number = call(memory.as_mut_ptr().wrapping_add(1)).into();
    assert!(memory[0].is_nan() && memory[results + 1].is_nan(), "the library wrote outside of its row of floats");
    let row = memory[1..=results].iter().map(|&khz| quarters(khz).unwrap_or(UNWRITTEN)).collect();
    Answer { number, row }
}

/// The shape that all writers share.
fn written(call: raw::BytesOut, bytes: &[u8], out: &mut [u8]) -> Answer {
    // Sound: both slices are valid for their lengths, and `told` lends one result.
    fenced(out, |o| told(1, |r| unsafe { call(bytes.as_ptr(), bytes.len(), o.as_mut_ptr(), o.len(), r) }))
}

/// The check of a span where it stands: a case would be a copy of it.
pub fn check_in(memory: &[u8], span: Range<usize>) -> Answer {
    Proved.check(&memory[span])
}

// Every call below is sound for the same reasons: slices are passed with their own lengths, what is lent to be written
// is borrowed for the call alone, and `told` lends as many results as include/kusikhut.h gives the function.
impl Implementation for Proved {
    fn decode(&self, code: Code, chips: &[u8], start: usize, n: usize, out: &mut [u8]) -> Answer {
        let call: raw::Decode = match code {
            Code::Nrz => raw::kusikhut_decode_nrz,
            Code::ThreeOfSix => raw::kusikhut_decode_three_of_six,
            Code::Manchester => raw::kusikhut_decode_manchester,
        };
        let (c, cl) = (chips.as_ptr(), chips.len());
        fenced(out, |o| told(1, |r| unsafe { call(c, cl, start, n, o.as_mut_ptr(), o.len(), r) }))
    }

    fn encode(&self, code: Code, bytes: &[u8], out: &mut [u8]) -> Answer {
        let call = match code {
            Code::Nrz => raw::kusikhut_encode_nrz,
            Code::ThreeOfSix => raw::kusikhut_encode_three_of_six,
            Code::Manchester => raw::kusikhut_encode_manchester,
        };
        written(call, bytes, out)
    }

    fn word(&self, code: Code, chips: &[u8], at: usize) -> Answer {
        let call: raw::Word = match code {
            Code::Nrz => raw::kusikhut_word_nrz,
            Code::ThreeOfSix => raw::kusikhut_word_three_of_six,
            Code::Manchester => raw::kusikhut_word_manchester,
        };
        told(1, |r| unsafe { call(chips.as_ptr(), chips.len(), at, r) })
    }

    fn search(&self, chips: &[u8], start: usize, allowance: usize) -> Answer {
        told(2, |r| unsafe { raw::kusikhut_search(chips.as_ptr(), chips.len(), start, allowance, r) })
    }

    fn check(&self, bytes: &[u8]) -> Answer {
        Answer::accepted(&[unsafe { raw::kusikhut_check(bytes.as_ptr(), bytes.len()) }.into()])
    }

    fn check_update(&self, old_check: u16, old_byte: u8, new_byte: u8, distance: usize) -> Answer {
        told(1, |r| unsafe { raw::kusikhut_update(old_check, old_byte, new_byte, distance, r) })
    }

    fn frame_read(&self, format: Format, bytes: &[u8], out: &mut [u8]) -> Answer {
        let call: raw::BytesOut = match format {
            Format::A => raw::kusikhut_read_a,
            Format::B => raw::kusikhut_read_b,
        };
        let (b, bl) = (bytes.as_ptr(), bytes.len());
        fenced(out, |o| told(3, |r| unsafe { call(b, bl, o.as_mut_ptr(), o.len(), r) }))
    }

    fn frame_write(&self, format: Format, content: &[u8], out: &mut [u8]) -> Answer {
        let call = match format {
            Format::A => raw::kusikhut_write_a,
            Format::B => raw::kusikhut_write_b,
        };
        written(call, content, out)
    }

    fn frame_change(&self, format: Format, frame: &mut [u8], place: usize, byte: u8) -> Answer {
        let call: raw::Change = match format {
            Format::A => raw::kusikhut_change_a,
            Format::B => raw::kusikhut_change_b,
        };
        fenced(frame, |f| told(3, |r| unsafe { call(f.as_mut_ptr(), f.len(), place, byte, r) }))
    }

    fn frame_size(&self, format: Format, length: u8) -> Answer {
        let call: raw::Size = match format {
            Format::A => raw::kusikhut_frame_size_a,
            Format::B => raw::kusikhut_frame_size_b,
        };
        told(1, |r| unsafe { call(length, r) })
    }

    fn receive(&self, chips: &[u8], start: usize, allowance: usize, out: &mut [u8]) -> Answer {
        let (c, cl) = (chips.as_ptr(), chips.len());
        fenced(out, |o| {
            told(7, |r| unsafe { raw::kusikhut_receive(c, cl, start, allowance, o.as_mut_ptr(), o.len(), r) })
        })
    }

    fn receive_manchester(&self, chips: &[u8], start: usize, out: &mut [u8]) -> Answer {
        let (c, cl) = (chips.as_ptr(), chips.len());
        fenced(out, |o| {
            told(7, |r| unsafe { raw::kusikhut_receive_manchester(c, cl, start, o.as_mut_ptr(), o.len(), r) })
        })
    }

    fn send(&self, kind: Kind, content: &[u8], out: &mut [u8]) -> Answer {
        let call = match kind {
            Kind::TWithA => raw::kusikhut_send_t_a,
            Kind::CWithA => raw::kusikhut_send_c_a,
            Kind::CWithB => raw::kusikhut_send_c_b,
            Kind::ManchesterWithA => raw::kusikhut_send_manchester_a,
        };
        written(call, content, out)
    }

    fn header_read(&self, body: &[u8]) -> Answer {
        told(14, |r| unsafe { raw::kusikhut_header_read(body.as_ptr(), body.len(), r) })
    }

    fn header_write(&self, h: &Header, out: &mut [u8]) -> Answer {
        let (cc, acc, m2, sn, a2, crc) = (h.cc, h.acc, h.m2, h.sn, h.a2.as_ptr(), h.payload_crc.as_ptr());
        let call = |o: *mut u8, ol, r| unsafe {
            match h.kind {
                HeaderKind::Short => raw::kusikhut_header_write_8c(cc, acc, o, ol, r),
                HeaderKind::Session => raw::kusikhut_header_write_8d(cc, acc, sn, crc, o, ol, r),
                HeaderKind::Address => raw::kusikhut_header_write_8e(cc, acc, m2, a2, o, ol, r),
                HeaderKind::AddressAndSession => raw::kusikhut_header_write_8f(cc, acc, m2, a2, sn, crc, o, ol, r),
            }
        };
        fenced(out, |o| told(1, |r| call(o.as_mut_ptr(), o.len(), r)))
    }

    fn access(&self, cc: u8) -> Answer {
        Answer::accepted(&[unsafe { raw::kusikhut_access(cc) }.into()])
    }

    fn maker(&self, m: u16) -> Answer {
        told(5, |r| unsafe { raw::kusikhut_maker(m, r) })
    }

    fn filter(&self, entries: &Entries, count: usize, content: &[u8]) -> Answer {
        let (e, c, cl) = (entries.as_ptr().cast(), content.as_ptr(), content.len());
        told(1, |r| unsafe { raw::kusikhut_filter(e, count, c, cl, r) })
    }

    /// The call has no number, since it refuses nothing.
    fn channel_row(&self, index: usize) -> Answer {
        told_floats(3, |row| {
            unsafe { raw::kusikhut_row(index, row) };
            0
        })
    }

    fn channel_centre(&self, index: usize, channel: usize) -> Answer {
        told_floats(1, |centre| unsafe { raw::kusikhut_centre(index, channel, centre) })
    }

    fn band_line(&self, input: &[u8], k: usize) -> Answer {
        told(3, |r| unsafe { raw::kusikhut_band_line(input.as_ptr(), input.len(), k, r) })
    }

    /// The program itself is run: no call for C has a chip reader.
    fn words(&self, input: &[u8]) -> Vec<u8> {
        let tool = concat!(env!("CARGO_MANIFEST_DIR"), "/../../../tools/program");
        let started = Command::new(tool).arg("words").stdin(Stdio::piped()).stdout(Stdio::piped()).spawn();
        let mut program = started.expect("tools/program runs");
        // The program stops reading where refusal 10 is certain, so that the end of a long input may find nobody.
        let _ = program.stdin.take().expect("it was piped").write_all(input);
        let done = program.wait_with_output().expect("the program ends");
        assert!(done.status.success(), "tools/program words failed: `rt run` in crates/words builds the program");
        done.stdout
    }

    fn store_calls(&self) -> Option<&dyn StoreCalls> {
        Some(self)
    }

    fn correction_calls(&self) -> &dyn CorrectionCalls {
        self
    }

    fn mending_calls(&self) -> &dyn MendingCalls {
        self
    }
}

impl CorrectionCalls for Proved {
    fn correction_write(&self, format: Format, bytes: &[u8], out: &mut [u8]) -> Answer {
        let call = match format {
            Format::A => raw::kusikhut_correction_write_a,
            Format::B => raw::kusikhut_correction_write_b,
        };
        written(call, bytes, out)
    }

    fn correction_check_bytes(&self, word: &[u8], out: &mut [u8]) -> Answer {
        written(raw::kusikhut_correction_check_bytes, word, out)
    }

    /// The call is lent no row of results.
    fn correction_header(&self, bytes: &[u8]) -> Answer {
        told(0, |_| unsafe { raw::kusikhut_correction_header(bytes.as_ptr(), bytes.len()) })
    }
}

// What was received and what is proposed must stay as they were.
impl MendingCalls for Proved {
    fn take_proposal(&self, format: Format, proposed: &[u8], received: &[u8]) -> Answer {
        let call: raw::Judge = match format {
            Format::A => raw::kusikhut_mending_judge_a,
            Format::B => raw::kusikhut_mending_judge_b,
        };
        shown(proposed, |p, pl| shown(received, |s, sl| told(1, |r| unsafe { call(p, pl, s, sl, r) })))
    }

    fn propose_one(&self, format: Format, received: &[u8], out: &mut [u8]) -> Answer {
        let call: raw::BytesOut = match format {
            Format::A => raw::kusikhut_mending_propose_one_a,
            Format::B => raw::kusikhut_mending_propose_one_b,
        };
        shown(received, |s, sl| fenced(out, |o| told(1, |r| unsafe { call(s, sl, o.as_mut_ptr(), o.len(), r) })))
    }

    fn propose(&self, format: Format, received: &[u8], out: &mut [u8]) -> Answer {
        let call: raw::BytesOut = match format {
            Format::A => raw::kusikhut_mending_propose_a,
            Format::B => raw::kusikhut_mending_propose_b,
        };
        shown(received, |s, sl| fenced(out, |o| told(1, |r| unsafe { call(s, sl, o.as_mut_ptr(), o.len(), r) })))
    }
}

// The memory of a store stands between fences in every call. Where C has it as `const`, it must stay as it was.
impl StoreCalls for Proved {
    fn store_empty(&self, store: &mut [u8]) -> Answer {
        fenced(store, |s| told(1, |r| unsafe { raw::kusikhut_store_empty(s.as_mut_ptr(), s.len(), r) }))
    }

    fn store_add(&self, store: &mut [u8], meter: Address, mode: u8, format: u8) -> Answer {
        let m = meter.as_ptr();
        fenced(store, |s| told(1, |r| unsafe { raw::kusikhut_store_add(s.as_mut_ptr(), s.len(), m, mode, format, r) }))
    }

    fn store_hear(&self, store: &mut [u8], meter: Address, number: u32) -> Answer {
        let m = meter.as_ptr();
        fenced(store, |s| told(1, |r| unsafe { raw::kusikhut_store_hear(s.as_mut_ptr(), s.len(), m, number, r) }))
    }

    fn store_issue(&self, store: &mut [u8], meter: Address) -> Answer {
        let m = meter.as_ptr();
        fenced(store, |s| told(1, |r| unsafe { raw::kusikhut_store_issue(s.as_mut_ptr(), s.len(), m, r) }))
    }

    fn store_restore(&self, store: &mut [u8], file: &[u8]) -> Answer {
        let (f, fl) = (file.as_ptr(), file.len());
        fenced(store, |s| told(1, |r| unsafe { raw::kusikhut_store_restore(s.as_mut_ptr(), s.len(), f, fl, r) }))
    }

    fn store_write(&self, store: &[u8], out: &mut [u8]) -> Answer {
        let call = |s, sl, o: &mut [u8], r| unsafe { raw::kusikhut_store_write(s, sl, o.as_mut_ptr(), o.len(), r) };
        shown(store, |s, sl| fenced(out, |o| told(1, |r| call(s, sl, o, r))))
    }

    fn store_look_up(&self, store: &[u8], meter: Address) -> Answer {
        let m = meter.as_ptr();
        shown(store, |s, sl| told(4, |r| unsafe { raw::kusikhut_store_look_up(s, sl, m, r) }))
    }

    fn store_allowance(&self, store: &[u8]) -> Answer {
        shown(store, |s, sl| told(1, |r| unsafe { raw::kusikhut_store_allowance(s, sl, r) }))
    }

    fn store_set_allowance(&self, store: &mut [u8], allowance: u32) -> Answer {
        fenced(store, |s| {
            told(1, |r| unsafe { raw::kusikhut_store_set_allowance(s.as_mut_ptr(), s.len(), allowance, r) })
        })
    }
}
