//! That the comparison of checks and updates can fail.
use crate::checks::{compare_checks, spans, updates, Wrong};
use crate::proved::{check_in, Proved};
use second::case::{Case, Outcome};
use second::compare::{compare_outcomes, Difference, Stats};
use second::implementation::{Implementation, Second};
use std::collections::BTreeSet;
use std::ops::Range;

/// Which bytes a wrong check takes for those of the span.
type Taken = fn(&[u8], Range<usize>) -> Vec<u8>;

/// The first span on which the library's check, of the bytes that a flaw takes, is seen to be wrong.
fn seen(taken: Taken) -> Box<Wrong> {
    let flaw = |memory: &[u8], span| Proved.check(&taken(memory, span));
    compare_checks(flaw, spans(1)).expect_err("the flaw is not seen")
}

fn length(wrong: &Wrong) -> usize {
    wrong.call.case.bytes("bytes").len()
}

/// So many bytes behind a multiple of 16 in memory.
fn offset(memory: &[u8], span: &Range<usize>) -> usize {
    memory[span.start..].as_ptr() as usize % 16
}

/// The bytes of a span after a change: of those that are apart, and of the groups of sixteen behind them.
fn changed(memory: &[u8], span: Range<usize>, change: impl Fn(&mut [u8], &mut [u8])) -> Vec<u8> {
    let mut bytes = memory[span].to_vec();
    let apart = bytes.len() % 16;
    let (first, groups) = bytes.split_at_mut(apart);
    change(first, groups);
    bytes
}

/// Nothing is seen where nothing is wrong, and every span is checked at 16 addresses between two noises.
#[test]
fn every_span_is_checked() {
    let spans = spans(1);
    let mut bits = 0;
    for length in 0..=300 {
        let single =
            |span: &&Vec<u8>| span.len() == length && span.iter().map(|byte| byte.count_ones()).sum::<u32>() == 1;
        let promised = length <= 48 || [125, 126, 127, 128, 255].contains(&length);
        let all = if promised { 8 * length } else { 0 };
        assert_eq!(spans.iter().filter(single).collect::<BTreeSet<_>>().len(), all, "single bits of {length} bytes");
        bits += all;
        assert!(
            spans.contains(&vec![0; length]) && spans.contains(&vec![0xFF; length]),
            "{length} zeros, {length} ones"
        );
    }
    // with zeros and ones, and eight times random bytes of every length
    assert_eq!(spans.len(), bits + 301 * 10);
    assert_eq!(compare_checks(check_in, spans), Ok((15_496 + 301 * 10) * 16 * 2));
}

/// Flaws of a check that reads words of four bytes and folds groups of sixteen, the first bytes apart. Each is seen on
/// spans of the first length on which it matters.
#[test]
fn flaws_of_a_check_are_seen() {
    let flaws: [(&str, usize, Taken); 14] = [
        ("the last byte is left out where one is apart", 1, |memory, span| {
            let end = if span.len() % 16 == 1 { span.end - 1 } else { span.end };
            memory[span.start..end].to_vec()
        }),
        ("the last bit is left out where fifteen bytes are apart", 15, |memory, span| {
            changed(memory, span, |first, _| {
                if first.len() == 15 {
                    first[14] &= 0xFE;
                }
            })
        }),
        ("the groups begin one byte early", 16, |memory, span| {
            let apart = span.start + span.len() % 16;
            match span.len() {
                0..=15 => memory[span].to_vec(),
                _ => [&memory[span.start..apart], &memory[apart - 1..span.end - 1]].concat(),
            }
        }),
        ("the groups begin one byte late", 16, |memory, span| {
            let apart = span.start + span.len() % 16;
            match span.len() {
                0..=15 => memory[span].to_vec(),
                _ => [&memory[span.start..apart], &memory[apart + 1..span.end + 1]].concat(),
            }
        }),
        ("the bytes apart are left out before a group", 17, |memory, span| {
            changed(memory, span, |first, groups| {
                if !groups.is_empty() {
                    first.fill(0);
                }
            })
        }),
        ("the fifth to eighth byte of a group have no term", 16, |memory, span| {
            changed(memory, span, |_, groups| groups.chunks_mut(16).for_each(|group| group[4..8].fill(0)))
        }),
        ("the ninth byte of a group has no term for its highest bit", 16, |memory, span| {
            changed(memory, span, |_, groups| groups.chunks_mut(16).for_each(|group| group[8] &= 0x7F))
        }),
        ("words are read with their last byte first", 16, |memory, span| {
            changed(memory, span, |_, groups| groups.chunks_mut(4).for_each(|word| word.reverse()))
        }),
        ("a group forgets those before it", 32, |memory, span| {
            changed(memory, span, |_, groups| {
                let last = groups.len().saturating_sub(16);
                groups[..last].fill(0);
            })
        }),
        ("the length is counted in a byte", 256, |memory, span| memory[span.start..][..span.len() % 256].to_vec()),
        ("the byte behind is read, too", 0, |memory, span| memory[span.start..span.end + 1].to_vec()),
        ("the byte before is read, too", 0, |memory, span| memory[span.start - 1..span.end].to_vec()),
        ("words are read at multiples of four", 1, |memory, span| {
            let early = offset(memory, &span) % 4;
            memory[span.start - early..span.end - early].to_vec()
        }),
        ("the last byte is left out at odd addresses", 1, |memory, span| {
            let end = if offset(memory, &span) % 2 == 1 { span.end.max(span.start + 1) - 1 } else { span.end };
            memory[span.start..end].to_vec()
        }),
    ];
    for (what, first, taken) in flaws {
        assert_eq!(length(&seen(taken)), first, "{what}");
    }
}

/// A check that is wrong at one address alone, and there only if one bit beside the span is 0, or only if it is 1.
#[test]
fn every_address_and_every_neighbour_is_tried() {
    for length in [0, 1, 15, 16, 17, 127, 300] {
        for address in 0..16 {
            for bit in 0..8 {
                for (behind, value) in [(false, 0), (false, 1), (true, 0), (true, 1)] {
                    let flaw = |memory: &[u8], span: Range<usize>| {
                        let beside = memory[if behind { span.end } else { span.start - 1 }];
                        let wrong = offset(memory, &span) == address && beside >> bit & 1 == value;
                        let mut answer = check_in(memory, span);
                        answer.row[0] ^= u64::from(wrong);
                        answer
                    };
                    let found = compare_checks(flaw, [vec![0x5A; length]]).expect_err("the flaw is not seen");
                    assert_eq!(found.offset, address);
                }
            }
        }
    }
}

/// Who looks up what a byte adds at its place in a group of sixteen has 4,096 values to be wrong in: all are met.
#[test]
fn every_byte_stands_at_every_place_of_a_group() {
    let mut met = BTreeSet::new();
    for span in spans(1) {
        let apart = span.len() % 16;
        met.extend(span[apart..].iter().enumerate().map(|(place, &byte)| (place % 16, byte)));
    }
    assert_eq!(met.len(), 16 * 256);
}

/// What is printed of a difference begins with a case that can be run again.
#[test]
fn a_wrong_check_is_printed_as_a_case() {
    let wrong = seen(|memory, span| memory[span.start..span.start + span.len() % 16].to_vec());
    let text = wrong.to_string();
    let line = text.lines().next().and_then(|line| line.split_once(": ")).expect("a case behind its number");
    assert_eq!(Case::from_text(line.1).as_ref(), Ok(&wrong.call.case));
    assert_eq!(text.lines().nth(3), Some("where the bytes begin 0 behind a multiple of 16 in memory, between"));
}

/// An update that is asked for other numbers than those of the case: old check, old byte, new byte, distance.
type Asked = fn(u16, u8, u8, usize) -> (u16, u8, u8, usize);

fn updated(asked: Asked) -> Result<Stats, Box<Difference>> {
    let flaw = |case: &Case| {
        let byte = |name| case.number(name) as u8;
        let (check, distance) = (case.number("old_check") as u16, case.number("distance") as usize);
        let (check, old, new, distance) = asked(check, byte("old_byte"), byte("new_byte"), distance);
        Outcome { answer: Proved.check_update(check, old, new, distance), lent: Vec::new() }
    };
    compare_outcomes(flaw, |case| case.run(&Second), updates()).map_err(Box::new)
}

/// Each flaw is seen at the first distance at which it matters.
#[test]
fn flaws_of_an_update_are_seen() {
    let stats = updated(|check, old, new, distance| (check, old, new, distance)).expect("nothing is wrong");
    assert_eq!(stats.total(), 131 * 256 * 3);
    let flaws: [(&str, u64, Asked); 8] = [
        ("the old check is not looked at", 0, |_, old, new, distance| (0, old, new, distance)),
        ("the old byte is not looked at", 0, |check, _, new, distance| (check, 0, new, distance)),
        ("the highest bit makes no difference", 0, |check, old, new, distance| {
            (check, old, new & 0x7F | old & 0x80, distance)
        }),
        ("the distance is taken modulo sixteen", 16, |check, old, new, distance| (check, old, new, distance % 16)),
        ("one byte too few behind from 112 on", 112, |check, old, new, distance| {
            (check, old, new, distance - distance / 112)
        }),
        ("one difference of two bytes is wrong at one distance", 77, |check, old, new, distance| {
            let wrong = distance == 77 && old ^ new == 0xB4;
            (check, old, new ^ u8::from(wrong), distance)
        }),
        ("125 is refused", 125, |check, old, new, distance| (check, old, new, distance + distance / 125)),
        ("126 is taken", 126, |check, old, new, distance| (check, old, new, distance - distance / 126)),
    ];
    for (what, first, asked) in flaws {
        let found = updated(asked).expect_err(what);
        assert_eq!(found.case.number("distance"), first, "{what}");
    }
}
