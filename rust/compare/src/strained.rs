//! A check under strain. Its three bits have an odd sum in the word that the costs
//! want, and each of them lies in further checks that want the same, so one of its
//! rows grows by almost 2U an iteration for as long as these hold.

use crate::codes::Code;
use crate::random::Random;

/// Bits 0, 1 and 2 make the first check; each lies in so many more, with two bits
/// that no other check has.
pub fn strained_code(more: [usize; 3]) -> Code {
    let mut checks = vec![vec![0, 1, 2]];
    let mut bits = 3;
    for (bit, more) in more.into_iter().enumerate() {
        for _ in 0..more {
            checks.push(vec![bit, bits, bits + 1]);
            bits += 2;
        }
    }
    Code { bits, checks }
}

/// Costs of at least this size for a word with an odd sum over the first check of
/// such a code and even sums over the others.
pub fn straining_costs(random: &mut Random, code: &Code, least: usize) -> Vec<i16> {
    let mut word: Vec<usize> = (0..code.bits).map(|_| random.below(2)).collect();
    word[2] = 1 ^ word[0] ^ word[1];
    for check in &code.checks[1..] {
        word[check[2]] = word[check[0]] ^ word[check[1]];
    }
    let cost = |bit: usize| random.between(least, 32_767) as i16 * (1 - 2 * bit as i16);
    word.into_iter().map(cost).collect()
}
