//! Codes with checks of two bits (document 02, L6): of these alone, and among others.

use crate::codes::{code_within, Code};
use crate::random::Random;

/// Whether a code has a check of two bits.
pub fn has_two_bits(code: &Code) -> bool {
    code.checks.iter().any(|check| check.len() == 2)
}

/// Bits 0 and 1, bits 1 and 2, and so on.
pub fn path(bits: usize) -> Code {
    Code {
        bits,
        checks: (1..bits).map(|bit| vec![bit - 1, bit]).collect(),
    }
}

/// The path, and its two ends.
pub fn ring(bits: usize) -> Code {
    let mut code = path(bits);
    code.checks.push(vec![0, bits - 1]);
    code
}

/// One bit with each of the others.
pub fn star(bits: usize, middle: usize) -> Code {
    let others = (0..bits).filter(|&bit| bit != middle);
    Code {
        bits,
        checks: others.map(|bit| pair(middle, bit)).collect(),
    }
}

fn pair(one: usize, other: usize) -> Vec<usize> {
    vec![one.min(other), one.max(other)]
}

/// Two different bits.
fn any_pair(random: &mut Random, bits: usize) -> Vec<usize> {
    let one = random.below(bits);
    pair(one, (one + random.between(1, bits - 1)) % bits)
}

/// Random checks of two bits, at least half as many as there are bits, with each bit in some
/// check.
pub fn pairs(random: &mut Random, bits: usize, checks: usize) -> Code {
    let mut order: Vec<usize> = (0..bits).collect();
    random.shuffle(&mut order);
    let mut code = Code {
        bits,
        checks: order
            .chunks_exact(2)
            .map(|two| pair(two[0], two[1]))
            .collect(),
    };
    if bits % 2 == 1 {
        code.checks.push(pair(order[0], order[bits - 1]));
    }
    while code.checks.len() < checks {
        code.checks.push(any_pair(random, bits));
    }
    random.shuffle(&mut code.checks);
    code
}

/// Checks of two bits alone, in some shape, at times with each check twice.
pub fn two_bit_code(random: &mut Random, most: usize) -> Code {
    let bits = random.between(3, most);
    let mut code = match random.below(7) {
        0 => path(bits),
        1 => ring(bits),
        2 => star(bits, random.below(bits)),
        _ => {
            let checks = random.between(bits.div_ceil(2), 2 * bits);
            pairs(random, bits, checks)
        }
    };
    if random.once_in(5) {
        code.checks.extend(code.checks.clone());
    }
    code
}

/// The code with some checks of two bits more, each at any place: of any two bits, of a bit and a
/// new one, or one that is there already. There are no more bits than this.
pub fn with_two_bits(random: &mut Random, mut code: Code, checks: usize, most: usize) -> Code {
    for _ in 0..checks {
        let there = code.checks.iter().find(|check| check.len() == 2);
        let check = match (random.below(4), there) {
            (0, Some(check)) => check.clone(),
            (1, _) if code.bits < most => {
                code.bits += 1;
                vec![random.below(code.bits - 1), code.bits - 1]
            }
            _ => any_pair(random, code.bits),
        };
        let place = random.below(code.checks.len() + 1);
        code.checks.insert(place, check);
    }
    code
}

/// A code of at most so many bits with checks of two bits, alone or among others.
pub fn any_two_bit_code(random: &mut Random, most: usize) -> Code {
    if random.once_in(2) {
        return two_bit_code(random, most);
    }
    let ordinary = code_within(random, most.max(4) - 1, most / 2, 3 * most);
    let checks = random.between(1, most);
    with_two_bits(random, ordinary, checks, most)
}

pub fn tiny_two_bit_code(random: &mut Random) -> Code {
    any_two_bit_code(random, 8)
}

pub fn small_two_bit_code(random: &mut Random) -> Code {
    any_two_bit_code(random, 40)
}

/// A check under strain: bits 0 and 1 are to be equal, and each lies in so many more checks with
/// a bit that no other check has.
pub fn strained_pair(more: usize) -> Code {
    let mut checks = vec![vec![0, 1]];
    checks.extend((0..2 * more).map(|place| vec![place % 2, place + 2]));
    Code {
        bits: 2 * more + 2,
        checks,
    }
}

/// Costs of at least this size for the word in which bit 0 and what hangs on it differ from bit
/// 1 and the rest.
pub fn straining_pair_costs(random: &mut Random, code: &Code, least: usize) -> Vec<i16> {
    let sign = 1 - 2 * random.below(2) as i16;
    let cost =
        |bit: usize| random.between(least, 32_767) as i16 * sign * (1 - 2 * (bit % 2) as i16);
    (0..code.bits).map(cost).collect()
}
