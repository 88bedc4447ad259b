//! What the tally counts of runs.

use crate::outcome::Outcome;
use reference::iteration::{most_row, Iterate, Problem, Totals, UNIT};
use reference::run::{FORMER_MOST_ITERATIONS, MOST_ITERATIONS};
use std::fmt;

/// What must happen in some run.
pub const OF_RUNS: [&str; 21] = [
    "half above zero",
    "half below zero",
    "limited above",
    "limited below",
    "auxiliary at zero",
    "auxiliary off zero",
    "multiplier above zero",
    "row above 16 bits",
    "total above 32 bits",
    "total equal to the tolerance",
    "total one above the tolerance",
    "only slacks exceed",
    "only multipliers exceed",
    "settled before the limit",
    "settled at the limit",
    "not settled",
    "place above zero",
    "not settled in 4,000 iterations",
    "settled after iteration 1,000",
    "bit in 1,000 checks after iteration 1,000",
    "row beyond the bound of 1,000 iterations",
];

/// What an accepted run amounts to.
pub fn end_events(problem: &Problem, outcome: &Outcome) -> [(&'static str, bool); 8] {
    let [place, k, settled] = [1, 2, 3].map(|field| outcome.fields[field].1);
    let at_limit = k == problem.settings.limit as usize;
    let long = k > FORMER_MOST_ITERATIONS;
    let crowded = problem.counts[..problem.split.bits]
        .iter()
        .any(|&count| count >= 1_000);
    let beyond = |&s: &i64| s > most_row(FORMER_MOST_ITERATIONS);
    [
        ("settled before the limit", settled == 1 && !at_limit),
        ("settled at the limit", settled == 1 && at_limit),
        ("not settled", settled == 0),
        ("place above zero", place > 0),
        (
            "not settled in 4,000 iterations",
            settled == 0 && k == MOST_ITERATIONS,
        ),
        ("settled after iteration 1,000", settled == 1 && long),
        ("bit in 1,000 checks after iteration 1,000", crowded && long),
        (
            "row beyond the bound of 1,000 iterations",
            rows(problem, outcome).iter().any(beyond),
        ),
    ]
}

fn rows<'a>(problem: &Problem, outcome: &'a Outcome) -> &'a [i64] {
    outcome.first("rows", 4 * problem.split.triples.len())
}

/// The largest sizes in the lists that runs left: of s, S and 256 S + W L.
#[derive(Clone, Copy, Debug, Default)]
pub struct Largest {
    row: i64,
    sum: i64,
    dividend: i128,
}

impl fmt::Display for Largest {
    fn fmt(&self, text: &mut fmt::Formatter) -> fmt::Result {
        let Largest { row, sum, dividend } = self;
        write!(text, "largest s {row}, S {sum}, 256 S + W L {dividend}")
    }
}

impl Largest {
    /// Looks at the lists of an accepted run.
    pub fn add(&mut self, problem: &Problem, outcome: &Outcome) {
        let row = rows(problem, outcome).iter().map(|s| s.abs()).max();
        self.row = self.row.max(row.unwrap_or(0));
        let sums = outcome.first("sums", problem.split.variables());
        for (variable, &sum) in sums.iter().enumerate() {
            self.sum = self.sum.max(sum.abs());
            let dividend = problem.dividend(variable, sum).abs();
            self.dividend = self.dividend.max(dividend);
        }
    }
}

/// What happens in an iteration.
pub fn iteration_events(
    problem: &Problem,
    iterate: &Iterate,
    totals: Totals,
) -> impl Iterator<Item = (&'static str, bool)> {
    quotient_events(problem, iterate)
        .into_iter()
        .chain(row_events(iterate))
        .chain(total_events(totals, problem.settings.tolerance.into()))
}

fn quotient_events(problem: &Problem, iterate: &Iterate) -> [(&'static str, bool); 6] {
    let is_half = |variable: usize, sign: i128| {
        let dividend = sign * problem.dividend(variable, iterate.sums[variable]);
        let divisor = problem.divisor(variable);
        dividend > 0 && 2 * (dividend % divisor) == divisor
    };
    let beyond = |variable: usize, sign: i128| {
        let dividend = sign * problem.dividend(variable, iterate.sums[variable]);
        dividend > (i128::from(UNIT) + 1) * problem.divisor(variable)
    };
    let variables = 0..problem.split.variables();
    let auxiliaries = &iterate.values[problem.split.bits..];
    [
        ("half above zero", variables.clone().any(|v| is_half(v, 1))),
        ("half below zero", variables.clone().any(|v| is_half(v, -1))),
        ("limited above", variables.clone().any(|v| beyond(v, 1))),
        ("limited below", variables.clone().any(|v| beyond(v, -1))),
        ("auxiliary at zero", auxiliaries.contains(&0)),
        ("auxiliary off zero", auxiliaries.iter().any(|&c| c != 0)),
    ]
}

fn row_events(iterate: &Iterate) -> [(&'static str, bool); 2] {
    let rows = || iterate.rows.iter().flatten();
    [
        ("multiplier above zero", rows().any(|&s| s > 0)),
        ("row above 16 bits", rows().any(|&s| s > 32_767)),
    ]
}

fn total_events(totals: Totals, tolerance: i128) -> [(&'static str, bool); 5] {
    let larger = totals.multipliers.max(totals.slacks);
    let exceed = (totals.multipliers > tolerance, totals.slacks > tolerance);
    [
        ("total above 32 bits", larger > i128::from(u32::MAX)),
        ("total equal to the tolerance", larger == tolerance),
        ("total one above the tolerance", larger == tolerance + 1),
        ("only slacks exceed", exceed == (false, true)),
        ("only multipliers exceed", exceed == (true, false)),
    ]
}
