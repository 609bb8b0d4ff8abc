//! The block check of spans anywhere in memory, and its update. The bytes of a case stand where the allocator puts
//! them; here a span begins at each of 16 addresses, between bytes that are no part of it. Who reads several bytes at a
//! time may be wrong at one length or one address alone, or take a neighbour for a byte of the span.
use second::answer::Answer;
use second::case::{hex, Argument, Case, Operation, Outcome};
use second::compare::Difference;
use second::implementation::{Implementation, Second};
use second::random::Random;
use std::fmt;
use std::ops::Range;

/// A span begins at so many addresses, the first of them a multiple of this number.
const ADDRESSES: usize = 16;

/// So many bytes before a span, and behind it, are noise at least.
const AROUND: usize = 32;

/// The first check that is wrong, and where its span stood.
#[derive(Debug, PartialEq)]
pub struct Wrong {
    /// So many bytes behind a multiple of 16.
    pub offset: usize,
    pub before: Vec<u8>,
    pub behind: Vec<u8>,
    pub call: Difference,
}

/// Of every length up to 300: zeros, ones, and eight times random bytes. Of those up to 48, of those about the longest
/// block, which has 126 bytes, and of 255 also each single bit, of which all other spans are sums.
pub fn spans(seed: u64) -> Vec<Vec<u8>> {
    let mut random = Random::new(seed);
    let mut spans = Vec::new();
    for length in 0..=300 {
        spans.extend([vec![0; length], vec![0xFF; length]]);
        spans.extend((0..8).map(|_| random.bytes(length)));
        if matches!(length, 0..=48 | 125..=128 | 255) {
            for bit in 0..8 * length {
                let mut span = vec![0; length];
                span[bit / 8] = 0x80 >> (bit % 8);
                spans.push(span);
            }
        }
    }
    spans
}

/// Compares a check, which is shown a memory and the place of a span in it, with the second program's: each span at 16
/// addresses, once between noise and once between its complement, so that each bit beside it is 0 and 1. Tells how
/// many checks there were.
pub fn compare_checks(
    check: impl Fn(&[u8], Range<usize>) -> Answer,
    spans: impl IntoIterator<Item = Vec<u8>>,
) -> Result<u64, Box<Wrong>> {
    let mut checks = 0;
    for span in spans {
        let right = Second.check(&span);
        // The span decides on its noise: one that is run again finds the same.
        let noise = Random::new(right.row[0]).bytes(AROUND + 2 * ADDRESSES + span.len() + AROUND);
        for flip in [0, 0xFF] {
            let around: Vec<u8> = noise.iter().map(|byte| byte ^ flip).collect();
            let mut memory = around.clone();
            let aligned = AROUND + memory[AROUND..].as_ptr().align_offset(ADDRESSES);
            for offset in 0..ADDRESSES {
                let start = aligned + offset;
                let end = start + span.len();
                memory.copy_from_slice(&around);
                memory[start..end].copy_from_slice(&span);
                let told = check(&memory, start..end);
                if told != right {
                    let outcome = |answer| Outcome { answer, lent: Vec::new() };
                    let case = Case::new(Operation::Check, vec![span.into()]);
                    let call = Difference { index: checks, case, first: outcome(told), second: outcome(right) };
                    let (before, behind) = (&memory[start - AROUND..start], &memory[end..end + AROUND]);
                    return Err(Box::new(Wrong { offset, before: before.into(), behind: behind.into(), call }));
                }
                checks += 1;
            }
        }
    }
    Ok(checks)
}

/// Updates at every distance up to a little beyond the farthest, by every difference of two bytes.
pub fn updates() -> Vec<Case> {
    let mut cases = Vec::new();
    for distance in 0..=130usize {
        for difference in 0..=0xFFu64 {
            for (old_check, old_byte) in [(0, 0), (0xFFFF, 0xFF), (0x3C5A, 0x96)] {
                let numbers = [old_check, old_byte, old_byte ^ difference].map(Argument::Number);
                let arguments = numbers.into_iter().chain([distance.into()]).collect();
                cases.push(Case::new(Operation::CheckUpdate, arguments));
            }
        }
    }
    cases
}

impl fmt::Display for Wrong {
    fn fmt(&self, f: &mut fmt::Formatter) -> fmt::Result {
        writeln!(f, "{}", self.call)?;
        writeln!(f, "where the bytes begin {} behind a multiple of {ADDRESSES} in memory, between", self.offset)?;
        write!(f, "{} and {}", hex(&self.before), hex(&self.behind))
    }
}
