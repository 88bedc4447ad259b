//! What the tally counts of the limit of c: numerators next to where it begins, and runs
//! with nearly all values there.

use crate::outcome::Outcome;
use reference::iteration::{Iterate, Problem, UNIT};

/// What must happen in some run. Of each two events of a bit the first is of a count up
/// to 31, the second of a larger one.
pub const OF_LIMITS: [&str; 13] = [
    "at the limit with a count up to 31",
    "at the limit with a larger count",
    "one below the limit with a count up to 31",
    "one below the limit with a larger count",
    "one above the limit with a count up to 31",
    "one above the limit with a larger count",
    "half a divisor below the limit with a count up to 31",
    "half a divisor below the limit with a larger count",
    "rounded to the limit with a count up to 31",
    "rounded to the limit with a larger count",
    AUXILIARY,
    "nine in ten values at the limit after iteration 200 with counts up to 31",
    "nine in ten values at the limit after iteration 200 with a larger count",
];

const AUXILIARY: &str = "auxiliary at the limit";

/// The largest count of the first event of two.
const SMALL: usize = 31;

/// How far the size of a variable's numerator is below U times its divisor.
fn below(problem: &Problem, iterate: &Iterate, variable: usize) -> i128 {
    let dividend = problem.dividend(variable, iterate.sums[variable]);
    i128::from(UNIT) * problem.divisor(variable) - dividend.abs()
}

/// What happens in an iteration.
pub fn limit_events(
    problem: &Problem,
    iterate: &Iterate,
) -> impl Iterator<Item = (&'static str, bool)> {
    let mut met = [false; 10];
    for bit in 0..problem.split.bits {
        let below = below(problem, iterate, bit);
        let past_half = problem.divisor(bit) - 2 * below;
        let larger = usize::from(problem.counts[bit] > SMALL);
        let edges = [
            below == 0,
            below == 1,
            below == -1,
            past_half == 0,
            past_half > 0 && below > 0,
        ];
        for (place, holds) in edges.into_iter().enumerate() {
            met[2 * place + larger] |= holds;
        }
    }
    let mut auxiliaries = problem.split.bits..problem.split.variables();
    let auxiliary = auxiliaries.any(|variable| below(problem, iterate, variable) == 0);
    let events = OF_LIMITS.into_iter().zip(met);
    events.chain([(AUXILIARY, auxiliary)])
}

/// What an accepted run amounts to.
pub fn limit_end_events(problem: &Problem, outcome: &Outcome) -> [(&'static str, bool); 2] {
    let values = outcome.first("values", problem.split.variables());
    let at_limit = values.iter().filter(|c| c.abs() == UNIT).count();
    let long = outcome.fields[2].1 > 200 && 10 * at_limit >= 9 * values.len();
    let larger = problem.counts.iter().any(|&count| count > SMALL);
    let [.., small, large] = OF_LIMITS;
    [(small, long && !larger), (large, long && larger)]
}
