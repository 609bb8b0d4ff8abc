//! Correction bytes for update frames (12.8, 11/14): behind a frame stand a
//! header of two bytes and the 32 check bytes of Reed-Solomon (255, 223).
//!
//! Nothing is divided by the generator here. A word belongs to the code when it
//! is 0 at each of the generator's 32 roots. That makes 32 equations for the 32
//! check bytes, which are solved as at school. Two bytes are multiplied as the
//! polynomials that they stand for, on lists of bits.

use std::sync::OnceLock;

use crate::answer::Refusal;
use crate::chips::{list_of_number, number_of, put};
use crate::frames::{content_of, Format};

/// The most bytes that get check bytes (12.8.3.2; 11/14, house rule: a longer
/// frame is refused, and not cut into several words).
pub const LONGEST_WORD: usize = 223;

/// Twice the 16 bytes that can be corrected (12.8.3.2).
pub const CHECK_BYTES: usize = 32;

/// Table 40: the ID of Reed-Solomon (255, 223), and the header with it three
/// times.
pub const ID: usize = 1;
pub const HEADER: u16 = 0x0421;

/// How many bytes the header has.
pub const HEADER_BYTES: usize = 2;

/// The header and the check bytes: what a written frame has behind it.
pub const CORRECTION: usize = HEADER_BYTES + CHECK_BYTES;

// ------------------------------------------------------------------- the field

/// The powers of x in the field's polynomial (11/14; CCSDS 131.0-B, 4.3.3).
pub const POWERS: [usize; 5] = [8, 7, 2, 1, 0];

/// The root of that polynomial. In the conventional basis (11/14, house rule)
/// bit k of a byte counts alpha^k.
pub const ALPHA: u8 = 0b10;

/// The product of two bytes: their polynomials in alpha, multiplied, and the
/// remainder when that is divided by the field's polynomial. Lists of bits, the
/// highest power first.
fn product(one: u8, other: u8) -> u8 {
    let one = list_of_number(one as usize, 8);
    let other = list_of_number(other as usize, 8);
    // From alpha^14 to alpha^0.
    let mut bits = [false; 15];
    for left in 0..8 {
        for right in 0..8 {
            bits[left + right] ^= one[left] && other[right];
        }
    }
    for place in 0..7 {
        if bits[place] {
            for power in POWERS {
                let under = place + 8 - power;
                bits[under] = !bits[under];
            }
        }
    }
    number_of(&bits[7..]) as u8
}

/// The same, looked up: each of the 65,536 products is worked out once, since the
/// equations of a single word need more than 40,000 of them.
pub fn times(one: u8, other: u8) -> u8 {
    static PRODUCTS: OnceLock<Vec<u8>> = OnceLock::new();
    let of_two = |two: u16| {
        let [one, other] = two.to_be_bytes();
        product(one, other)
    };
    let products = PRODUCTS.get_or_init(|| (0..=u16::MAX).map(of_two).collect());
    products[256 * one as usize + other as usize]
}

/// A byte to a power: multiplied with itself as often as it says.
pub fn to_the(byte: u8, power: usize) -> u8 {
    (0..power).fold(1, |value, _| times(value, byte))
}

/// The byte whose product with this one is 1.
fn inverse(byte: u8) -> u8 {
    let found = (1..=255).find(|&other| times(byte, other) == 1);
    found.expect("only 0 has none")
}

// -------------------------------------------------------------------- the code

/// The generator's roots: alpha^(11 j) for j from 112 to 143 (11/14; CCSDS
/// 131.0-B, 4.3.4).
pub fn roots() -> Vec<u8> {
    (112..=143).map(|j| to_the(ALPHA, 11 * j)).collect()
}

/// The value of a word at x: its first byte counts the highest power, its last
/// byte the power 0. Adding is adding bit by bit.
pub fn value_at(word: &[u8], x: u8) -> u8 {
    let add = |sum, &byte| times(sum, x) ^ byte;
    word.iter().fold(0, add)
}

/// Each root, and the factors of the check bytes of any word there: its powers
/// from 31 to 0.
fn factors_of_check_bytes() -> &'static Vec<(u8, Vec<u8>)> {
    static FACTORS: OnceLock<Vec<(u8, Vec<u8>)>> = OnceLock::new();
    let of_root = |root| {
        let powers = (0..CHECK_BYTES).rev();
        (root, powers.map(|power| to_the(root, power)).collect())
    };
    FACTORS.get_or_init(|| roots().into_iter().map(of_root).collect())
}

/// The one equation for each root: the word with its check bytes is 0 there. So
/// the check bytes alone have the value there that the word has with zeros in
/// their places, since two values that add up to 0 are equal. That value stands
/// last, behind the factors of the check bytes.
fn equations_for(word: &[u8]) -> Vec<Vec<u8>> {
    let mut without = word.to_vec();
    without.extend([0; CHECK_BYTES]);
    let mut equations = Vec::new();
    for (root, factors) in factors_of_check_bytes() {
        let mut equation = factors.clone();
        equation.push(value_at(&without, *root));
        equations.push(equation);
    }
    equations
}

/// Solves as many equations as there are unknowns. In turn, each unknown is kept
/// in one equation, with the factor 1, and taken out of all the others.
fn solve(mut equations: Vec<Vec<u8>>) -> Vec<u8> {
    let unknowns = equations.len();
    for unknown in 0..unknowns {
        let with_it = (unknown..unknowns).find(|&place| equations[place][unknown] != 0);
        // Powers of different numbers, so that there is exactly one solution.
        let mut kept = equations.remove(with_it.expect("no two roots are the same"));
        let one = inverse(kept[unknown]);
        for factor in &mut kept {
            *factor = times(*factor, one);
        }
        for other in &mut equations {
            let often = other[unknown];
            for (factor, &of_kept) in other.iter_mut().zip(&kept) {
                *factor ^= times(often, of_kept);
            }
        }
        equations.insert(unknown, kept);
    }
    equations
        .iter()
        .map(|equation| equation[unknowns])
        .collect()
}

/// The check bytes of a word, highest power first; 23 if it is too long.
pub fn check_bytes_of(word: &[u8]) -> Result<Vec<u8>, Refusal> {
    if word.len() > LONGEST_WORD {
        return Err(Refusal::TooLongForCorrection);
    }
    // The fill stands before the word (11/14, house rule).
    let mut filled = vec![0; LONGEST_WORD - word.len()];
    filled.extend(word);
    Ok(solve(equations_for(&filled)))
}

// ------------------------------------------------------------------- the calls

/// The check bytes alone. Order: 23, 4. Answers their number.
pub fn check_bytes(word: &[u8], out: &mut [u8]) -> Result<usize, Refusal> {
    put(&check_bytes_of(word)?, out)
}

/// Writing the frame at the front of a buffer, the header and the check bytes.
/// Order: the frame's 1, 2, 1, 3, then 23, 4. Answers the bytes written.
///
/// The header is not part of the word (11/14), nor is what stands behind the
/// frame in the buffer.
pub fn write(format: Format, bytes: &[u8], out: &mut [u8]) -> Result<usize, Refusal> {
    let (_, sizes) = content_of(format, bytes)?;
    let mut written = bytes[..sizes.frame].to_vec();
    let check_bytes = check_bytes_of(&written)?;
    // 12.8.2.2: "LSB en premier", of which 11/14 says: low byte first.
    written.extend(HEADER.to_le_bytes());
    written.extend(check_bytes);
    put(&written, out)
}

/// The ID of a header: each of its bits is what two or three of the copies say.
/// Bit 15 is not looked at (12.8.2.2).
pub fn id_of(header: u16) -> usize {
    let bits = list_of_number(header as usize, 16);
    let copies = [&bits[1..6], &bits[6..11], &bits[11..16]];
    let say_yes = |bit: usize| copies.iter().filter(|copy| copy[bit]).count();
    let voted: Vec<bool> = (0..5).map(|bit| say_yes(bit) >= 2).collect();
    number_of(&voted)
}

/// Reading the header from the first two bytes. Order: 1, 24.
pub fn read_header(bytes: &[u8]) -> Result<(), Refusal> {
    if bytes.len() < HEADER_BYTES {
        return Err(Refusal::Ends);
    }
    let header = u16::from_le_bytes([bytes[0], bytes[1]]);
    match id_of(header) {
        ID => Ok(()),
        _ => Err(Refusal::AnotherCode),
    }
}
