//! Codes for the encoder: up to 256 bits, and checks that depend on each other.

use crate::codes::{code_of, code_within, small_code, tiny_code, training_code, Code};
use crate::random::Random;
use crate::two_bits::{small_two_bit_code, tiny_two_bit_code};
use reference::encoder::MOST_ENCODED_BITS;
use std::collections::BTreeSet;

fn code(bits: usize, checks: &[&[usize]]) -> Code {
    Code {
        bits,
        checks: checks.iter().map(|check| check.to_vec()).collect(),
    }
}

/// Every three of four bits: the word of zeros is the only codeword.
pub fn only_zeros() -> Code {
    code(4, &[&[0, 1, 2], &[0, 1, 3], &[0, 2, 3], &[1, 2, 3]])
}

/// Two checks whose sum is the last bit alone, which is so a pivot.
pub fn last_bit_fixed() -> Code {
    code(4, &[&[0, 1, 2], &[0, 1, 2, 3]])
}

/// A check, the same again, another, and the sum of both.
pub fn dependent() -> Code {
    code(5, &[&[0, 1, 2], &[0, 1, 2], &[2, 3, 4], &[0, 1, 3, 4]])
}

/// The Hamming code of 7 bits.
pub fn hamming() -> Code {
    code(7, &[&[0, 1, 2, 4], &[0, 1, 3, 5], &[0, 2, 3, 6]])
}

/// Every three neighbours of so many bits: the last two are the message.
pub fn neighbours(bits: usize) -> Code {
    Code {
        bits,
        checks: (2..bits).map(|bit| vec![bit - 2, bit - 1, bit]).collect(),
    }
}

/// The bits that lie in one of two checks alone.
fn sum(one: &[usize], other: &[usize]) -> Vec<usize> {
    let [one, other] = [one, other].map(|check| check.iter().copied().collect::<BTreeSet<usize>>());
    (&one ^ &other).into_iter().collect()
}

/// The code with some checks more, each at any place: a check again, or the sum of two.
pub fn with_dependent_checks(random: &mut Random, mut code: Code) -> Code {
    for _ in 0..random.between(1, 5) {
        let [one, other] = [(); 2].map(|()| random.below(code.checks.len()));
        let both = sum(&code.checks[one], &code.checks[other]);
        let check = match both.len() {
            2..=32 => both,
            _ => code.checks[one].clone(),
        };
        code.checks
            .insert(random.below(code.checks.len() + 1), check);
    }
    code
}

/// Three checks of three bits for each bit: few codewords, or only the word of zeros.
pub fn crammed_code(random: &mut Random) -> Code {
    let bits = random.between(4, 40);
    code_of(random, bits, 3 * bits, 3 * bits)
}

/// As many bits as can be.
pub fn longest_code(random: &mut Random) -> Code {
    let checks = random.between(8, 200);
    let least = (3 * checks).max(MOST_ENCODED_BITS) - 2 * checks;
    let triples = random.between(least, least + 400).min(30 * checks);
    code_of(random, MOST_ENCODED_BITS, checks, triples)
}

/// Mostly tiny and small codes; some with checks of two bits, some with checks that depend on
/// others.
pub fn encoded_code(random: &mut Random) -> Code {
    let code = match random.below(50) {
        40..=46 => tiny_two_bit_code(random),
        47.. => small_two_bit_code(random),
        0 => training_code(),
        1..=2 => longest_code(random),
        3..=4 => code_within(random, MOST_ENCODED_BITS, 150, 1_000),
        5..=7 => crammed_code(random),
        8..=22 => small_code(random),
        _ => tiny_code(random),
    };
    match random.below(3) {
        0 => with_dependent_checks(random, code),
        _ => code,
    }
}
