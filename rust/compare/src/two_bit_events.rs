//! What the tally counts of runs with checks of two bits.

use crate::codes::Code;
use crate::outcome::Outcome;
use crate::two_bits::{path, ring, star};
use reference::iteration::most_row;
use reference::run::{FORMER_MOST_ITERATIONS, MOST_ITERATIONS};
use std::collections::BTreeSet;

/// What must happen in some run.
pub const OF_TWO_BITS: [&str; 14] = [
    "two-bit checks alone",
    "two-bit checks among others",
    "path of two-bit checks",
    "ring of two-bit checks",
    "star of two-bit checks",
    "equal two-bit checks",
    "2,048 two-bit checks",
    "bit in 1,000 two-bit checks",
    "8,192 triples with two-bit checks",
    "row of a two-bit check above zero",
    "row of a two-bit check beyond the bound of 1,000 iterations",
    "two-bit checks not settled in 4,000 iterations",
    "two-bit checks settled after iteration 1",
    "bit in two-bit checks at the limit",
];

/// The first two rows of each check of two bits, at the end of a run.
fn rows_of_two_bits<'a>(code: &Code, outcome: &'a Outcome) -> Vec<&'a [i64]> {
    let rows = outcome.first("rows", 4 * code.triples());
    let mut triples = 0;
    let mut found = Vec::new();
    for check in &code.checks {
        if check.len() == 2 {
            found.push(&rows[4 * triples..][..2]);
        }
        triples += check.len().max(3) - 2;
    }
    found
}

/// What an accepted run of a code amounts to; nothing without a check of two bits.
pub fn two_bit_events(code: &Code, outcome: &Outcome) -> Vec<(&'static str, bool)> {
    let two: Vec<&Vec<usize>> = code
        .checks
        .iter()
        .filter(|check| check.len() == 2)
        .collect();
    if two.is_empty() {
        return Vec::new();
    }
    let [k, settled] = [2, 3].map(|field| outcome.fields[field].1);
    let mut counts = vec![0; code.bits];
    two.iter()
        .copied()
        .flatten()
        .for_each(|&bit| counts[bit] += 1);
    let rows = rows_of_two_bits(code, outcome).concat();
    let values = outcome.first("values", code.bits);
    let at_limit = |bit: usize| counts[bit] > 0 && values[bit].abs() == 16_384;
    let stars = [0, code.bits - 1].map(|middle| star(code.bits, middle));
    let happened = [
        two.len() == code.checks.len(),
        two.len() < code.checks.len(),
        *code == path(code.bits),
        *code == ring(code.bits),
        stars.contains(code),
        two.iter().collect::<BTreeSet<_>>().len() < two.len(),
        two.len() == 2_048,
        counts.iter().any(|&count| count >= 1_000),
        code.triples() == 8_192,
        rows.iter().any(|&s| s > 0),
        rows.iter().any(|&s| s > most_row(FORMER_MOST_ITERATIONS)),
        settled == 0 && k == MOST_ITERATIONS,
        settled == 1 && k > 1,
        (0..code.bits).any(at_limit),
    ];
    OF_TWO_BITS.into_iter().zip(happened).collect()
}
