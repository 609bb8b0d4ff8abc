//! Cases of receiving and sending.

use super::bytes::{any_content, perhaps_damaged_frame, promised_content};
use super::chips::{allowance, buffer, flip_a_chip, lead, noise, spoil, start_before, start_near};
use super::{number, output_for};
use crate::case::Argument;
use crate::chips::{encode_list, list_of_number, packed};
use crate::frames::frame_of;
use crate::random::Random;
use crate::sync::{Kind, NOT_MODE_T, SYNC, SYNC_CHIPS};

/// A transmission in noise, perhaps damaged in its frame, its chips or its
/// tail. Answers the buffer, the place where it begins, and its content's size.
pub fn transmission(random: &mut Random, kind: Kind) -> (Vec<u8>, usize, usize) {
    let place = lead(random);
    let frame = perhaps_damaged_frame(random, kind.format());
    let n = promised_content(kind.format(), &frame);

    let mut list = noise(random, place);
    let mut sync = kind.sync_chips();
    if !sync.is_empty() && random.once_in(12) {
        // An earlier sync: only the first match is followed.
        list.extend(list_of_number(SYNC, SYNC_CHIPS));
        let between = random.below(200);
        list.extend(noise(random, between));
    }
    if !sync.is_empty() && random.once_in(8) {
        damage_tail(random, &mut sync);
    }
    list.extend(sync);
    let mut encoded = encode_list(kind.code(), &frame);
    match random.below(20) {
        0..=2 => spoil(random, kind.code(), &mut encoded),
        3 => {
            // The chips end somewhere, perhaps within the first byte.
            let left = random.below(encoded.len());
            encoded.truncate(left);
        }
        4 => {
            let left = random.below(20);
            encoded.truncate(left);
        }
        5 => {
            // A wrong word in front, and the chips end as well: the end counts.
            let first = random.below(40);
            encoded[first] = !encoded[first];
            let left = random.below(encoded.len());
            encoded.truncate(left);
        }
        _ => {}
    }
    list.extend(encoded);
    let (chips, moved) = buffer(random, list);
    (chips, place + moved, n)
}

/// A tail that is perhaps none: 010101 and then anything, or one wrong chip, or
/// none at all. Mode T has no tail, so there the frame moves back.
pub fn damage_tail(random: &mut Random, sync: &mut Vec<bool>) {
    sync.truncate(SYNC_CHIPS);
    match random.below(3) {
        0 => {
            sync.extend(list_of_number(NOT_MODE_T, 6));
            sync.extend(noise(random, 10));
        }
        1 => {
            let mut tail = list_of_number(random.pick(&[0x54CD, 0x543D]), SYNC_CHIPS);
            flip_a_chip(random, &mut tail);
            sync.extend(tail);
        }
        _ => {}
    }
}

pub fn receive(random: &mut Random) -> Vec<Argument> {
    let (chips, place, n) = match random.below(12) {
        0 | 1 => sync_near_the_end(random),
        2 => only_noise(random),
        _ => {
            let kind = any_kind_with_sync(random);
            transmission(random, kind)
        }
    };
    let start = start_before(random, place, &chips);
    let allowance = allowance(random, &chips, start, place);
    let out = output_for(random, n);
    vec![chips.into(), start.into(), allowance.into(), out.into()]
}

pub fn any_kind_with_sync(random: &mut Random) -> Kind {
    random.pick(&[Kind::TWithA, Kind::CWithA, Kind::CWithB])
}

/// A sync with only a few chips behind it: none, a part of a tail, a tail and
/// a part of the first byte. Modes T and C ask for the same 16 chips there.
pub fn sync_near_the_end(random: &mut Random) -> (Vec<u8>, usize, usize) {
    let kind = any_kind_with_sync(random);
    let frame = perhaps_damaged_frame(random, kind.format());
    let mut behind = match random.below(3) {
        0 => kind.sync_chips()[SYNC_CHIPS..].to_vec(),
        1 => list_of_number(NOT_MODE_T, 6),
        _ => noise(random, 40),
    };
    behind.extend(encode_list(kind.code(), &frame));
    let left = match random.below(2) {
        0 => random.pick(&[11, 12, 15, 16, 17, 24, 32]),
        _ => random.below(41),
    };
    behind.truncate(left);
    // So many chips before that no padding comes behind.
    let place = 8 * random.below(20) + (8 - behind.len() % 8) % 8;
    let mut list = noise(random, place);
    list.extend(list_of_number(SYNC, SYNC_CHIPS));
    list.extend(behind);
    (packed(&list), place, 20)
}

/// No transmission at all.
pub fn only_noise(random: &mut Random) -> (Vec<u8>, usize, usize) {
    let count = 8 * random.below(60);
    let chips = packed(&noise(random, count));
    (chips, random.below(count + 1), 20)
}

pub fn receive_manchester(random: &mut Random) -> Vec<Argument> {
    let (chips, place, n) = transmission(random, Kind::ManchesterWithA);
    let start = start_near(random, place, &chips);
    let out = output_for(random, n);
    vec![chips.into(), start.into(), out.into()]
}

pub fn send(random: &mut Random) -> Vec<Argument> {
    let kind = random.pick(&Kind::ALL);
    let content = any_content(random, kind.format());
    let size = match frame_of(kind.format(), &content) {
        Ok(frame) => {
            let chips = kind.sync_chips().len() + frame.len() * kind.code().chips_in_a_byte();
            chips.div_ceil(8)
        }
        Err(_) => 300,
    };
    let out = output_for(random, size);
    vec![number(kind as u8), content.into(), out.into()]
}
