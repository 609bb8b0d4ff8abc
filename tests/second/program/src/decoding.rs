//! The second proposer of mending: it finds up to 16 wrong bytes at once.
//!
//! A byte that counts x^i and is off by e adds e × root^i to the value at each root
//! (`values_of`). The roots are beta^112 to beta^143, beta being alpha^11. So with
//! X = beta^i, the number that names the place, value k is the sum of e × X^(112 + k)
//! over all wrong bytes, k from 0 to 31.
//!
//! As factors of z^0 to z^31 the values make a polynomial S. The locator is the product
//! of all 1 - X z: it is 0 at 1 / X exactly for the places of wrong bytes. The evaluator
//! is what locator × S leaves below z^32, and of at most 16 wrong bytes it has a
//! degree below 16. Euclid's algorithm on z^32 and S comes by both of them, but for a
//! number that both are multiplied with (Sugiyama and others). Forney's formula then
//! tells each e.
//!
//! All of that holds where a code word is near. Elsewhere something else comes out.
//! Nothing here tries to foresee when: what came out is judged at the end.

use std::sync::OnceLock;

use crate::answer::Refusal;
use crate::chips::put;
use crate::correction::{times, to_the, ALPHA, CHECK_BYTES};
use crate::frames::Format;
use crate::mending::{
    different, frame_size, is_code_word, received_word, values_of, LONGEST, MOST_DIFFERENT,
};

/// The first of the roots is beta to this power.
const FIRST_ROOT: usize = 112;

/// Beta to any power. To the power 255 it is 1 again.
fn beta_to(power: usize) -> u8 {
    static POWERS: OnceLock<Vec<u8>> = OnceLock::new();
    let powers = || {
        (0..LONGEST)
            .map(|power| to_the(ALPHA, 11 * power))
            .collect()
    };
    POWERS.get_or_init(powers)[power % LONGEST]
}

/// One byte divided by another: times its power 254, since the power 255 of any byte
/// but 0 is 1. Divided by 0 it is 0, which comes up only where no code word is near.
fn over(one: u8, other: u8) -> u8 {
    static INVERSES: OnceLock<Vec<u8>> = OnceLock::new();
    let inverses = || (0..=255).map(|byte| to_the(byte, LONGEST - 1)).collect();
    times(one, INVERSES.get_or_init(inverses)[other as usize])
}

// ----------------------------------------------------------------- polynomials

/// A polynomial in z: in place k stands the factor of z^k. The last factor is not 0,
/// and the polynomial 0 has none.
struct Polynomial(Vec<u8>);

impl Polynomial {
    fn new(mut factors: Vec<u8>) -> Polynomial {
        while factors.last() == Some(&0) {
            factors.pop();
        }
        Polynomial(factors)
    }

    /// The factor 1 before this power of z, and nothing else.
    fn power(power: usize) -> Polynomial {
        let mut factors = vec![0; power];
        factors.push(1);
        Polynomial(factors)
    }

    /// One more than the degree; 0 for the polynomial 0.
    fn size(&self) -> usize {
        self.0.len()
    }

    /// The factor of the highest power.
    fn highest(&self) -> u8 {
        self.0.last().copied().unwrap_or(0)
    }

    fn value_at(&self, z: u8) -> u8 {
        let factors = self.0.iter().rev();
        factors.fold(0, |sum, &factor| times(sum, z) ^ factor)
    }

    /// This one and another, so many times and with its powers raised by so many.
    /// To add is to subtract.
    fn plus(self, other: &Polynomial, often: u8, raised: usize) -> Polynomial {
        let mut sum = self.0;
        sum.resize(sum.len().max(raised + other.size()), 0);
        for (place, &factor) in other.0.iter().enumerate() {
            sum[raised + place] ^= times(often, factor);
        }
        Polynomial::new(sum)
    }

    /// The derivative: z^k becomes k × z^(k - 1), and k is 1 if it is odd, else 0.
    fn derivative(&self) -> Polynomial {
        let odd_alone = |(power, &factor): (usize, &u8)| if power % 2 == 1 { factor } else { 0 };
        Polynomial::new(self.0.iter().enumerate().skip(1).map(odd_alone).collect())
    }
}

// -------------------------------------------------------------- the wrong bytes

/// A rest of Euclid's algorithm: its factor times S, but for a multiple of z^32.
struct Rest {
    rest: Polynomial,
    factor: Polynomial,
}

/// What is left of one rest when it is divided by another, which is not 0.
fn divided(one: Rest, by: &Rest) -> Rest {
    let mut left = one;
    while left.rest.size() >= by.rest.size() {
        let raised = left.rest.size() - by.rest.size();
        let often = over(left.rest.highest(), by.rest.highest());
        // Takes the highest power away from what is left.
        left = Rest {
            rest: left.rest.plus(&by.rest, often, raised),
            factor: left.factor.plus(&by.factor, often, raised),
        };
    }
    left
}

/// The locator, which is the factor, and the evaluator, which is the rest: the first
/// one whose degree is below 16.
fn locator_and_evaluator(values: Vec<u8>) -> Rest {
    let mut before = Rest {
        rest: Polynomial::power(CHECK_BYTES),
        factor: Polynomial::new(Vec::new()),
    };
    let mut now = Rest {
        rest: Polynomial::new(values),
        factor: Polynomial::power(0),
    };
    while now.rest.size() > MOST_DIFFERENT {
        let next = divided(before, &now);
        before = now;
        now = next;
    }
    now
}

/// What comes out for a word: each of its places is tried, the length byte's as well,
/// and the byte there is changed by what Forney's formula says, if the locator is 0.
fn changed(word: &[u8]) -> Vec<u8> {
    let found = locator_and_evaluator(values_of(word));
    let (locator, evaluator) = (found.factor, found.rest);
    let derivative = locator.derivative();
    let mut changed = word.to_vec();
    for (power, byte) in changed.iter_mut().rev().enumerate() {
        // X is beta^power, and 1 / X is beta^back.
        let back = LONGEST - power;
        let z = beta_to(back);
        if locator.value_at(z) == 0 {
            // e is X^(1 - 112) times evaluator over derivative, both at 1 / X.
            let off = over(evaluator.value_at(z), derivative.value_at(z));
            *byte ^= times(off, beta_to((FIRST_ROOT - 1) * back));
        }
    }
    changed
}

/// It may be proposed for this word: a code word, at most 16 bytes away, the same
/// length byte. More bytes are never changed, since the locator has a degree of at
/// most 16; but whoever judges does not rely on that.
fn is_right_for(word: &[u8], proposal: &[u8]) -> bool {
    let near = different(proposal, word) <= MOST_DIFFERENT;
    near && proposal[0] == word[0] && is_code_word(proposal)
}

/// The code word near the received word; if there is none, the received word.
fn proposal_for(word: Vec<u8>) -> Vec<u8> {
    let proposal = changed(&word);
    if is_right_for(&word, &proposal) {
        proposal
    } else {
        word
    }
}

/// Proposing what was received with up to 16 wrong bytes mended. Order: 1 if nothing
/// was received, 2, 23, 1, 4. Answers the bytes written.
pub fn propose(format: Format, received: &[u8], out: &mut [u8]) -> Result<usize, Refusal> {
    let frame = frame_size(format, received)?;
    let word = received_word(received, frame)?;
    put(&proposal_for(word), out)
}
