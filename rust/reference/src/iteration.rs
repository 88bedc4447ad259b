//! One iteration of the update.

use crate::fault::Fault;
use crate::run::FORMER_MOST_ITERATIONS;
use crate::splitting::{Split, BLANK};
use crate::{Reference, SOUND};
use interface::Settings;

/// The centred value of a 1.
pub const UNIT: i64 = 16_384;

/// What no s exceeds after so many iterations: each adds at most 2U.
pub const fn most_row(iterations: usize) -> i64 {
    2 * UNIT * iterations as i64
}

/// The signs of a triple's three variables in its four rows.
pub const SIGNS: [[i64; 3]; 4] = [[1, -1, -1], [-1, 1, -1], [-1, -1, 1], [1, 1, 1]];

/// What a run knows before its first iteration.
pub struct Problem {
    pub reference: Reference,
    pub split: Split,
    pub counts: Vec<usize>,
    pub settings: Settings,
    /// One cost a variable; an auxiliary's is 0.
    pub costs: Vec<i64>,
    pub signs: [[i64; 3]; 4],
}

impl Problem {
    pub fn new(reference: Reference, split: Split, settings: Settings, costs: &[i16]) -> Problem {
        let mut all: Vec<i64> = costs.iter().map(|&cost| i64::from(cost)).collect();
        all.resize(split.variables(), 0);
        let mut signs = SIGNS;
        if reference.has(Fault::ChangedRowOrder) {
            signs.rotate_right(1);
        }
        Problem {
            reference,
            counts: reference.counts_of(&split),
            split,
            settings,
            costs: all,
            signs,
        }
    }

    /// The dividend of a variable's quotient for its sum S.
    pub fn dividend(&self, variable: usize, sum: i64) -> i128 {
        let weighted = i128::from(self.settings.weight) * i128::from(self.costs[variable]);
        -(256 * i128::from(sum) + weighted)
    }

    /// The divisor of a variable's quotient; e is its number of rows.
    pub fn divisor(&self, variable: usize) -> i128 {
        let e = 4 * self.counts[variable] as i128;
        256 * e - i128::from(self.settings.ratio)
    }
}

/// S and c of every variable, s of every row.
#[derive(Clone, Debug, PartialEq, Eq)]
pub struct Iterate {
    pub sums: Vec<i64>,
    pub values: Vec<i64>,
    pub rows: Vec<[i64; 4]>,
}

/// The squares of the changes of p and of z, added up over all rows.
#[derive(Clone, Copy, Debug, PartialEq, Eq)]
pub struct Totals {
    pub multipliers: i128,
    pub slacks: i128,
}

pub fn slack(s: i64) -> i64 {
    if s < 0 {
        -s
    } else {
        0
    }
}

pub fn multiplier(s: i64) -> i64 {
    if s > 0 {
        s
    } else {
        0
    }
}

/// Before the first iteration every s is 0.
pub fn start(problem: &Problem) -> Iterate {
    let variables = problem.split.variables();
    Iterate {
        sums: vec![0; variables],
        values: vec![0; variables],
        rows: vec![[0; 4]; problem.split.triples.len()],
    }
}

/// The next iterate, and how much p and z changed.
pub fn iterate(problem: &Problem, old: &Iterate) -> (Iterate, Totals) {
    let sums = row_sums(problem, &old.rows);
    let values: Vec<i64> = (0..sums.len())
        .map(|variable| value(problem, variable, sums[variable]))
        .collect();
    let rows = renewed_rows(problem, &old.rows, &values);
    let totals = changes(problem, &old.rows, &rows);
    let new = Iterate { sums, values, rows };
    (new, totals)
}

/// S of every variable.
pub fn row_sums(problem: &Problem, rows: &[[i64; 4]]) -> Vec<i64> {
    let mut sums = vec![0; problem.split.variables()];
    for (triple, rows) in problem.split.triples.iter().zip(rows) {
        for (signs, &s) in problem.signs.iter().zip(rows) {
            for (&item, sign) in triple.iter().zip(signs) {
                let share = sign * (slack(s) + multiplier(s));
                match item {
                    BLANK if problem.reference.has(Fault::BlankShareAdded) => sums[0] += share,
                    BLANK => (),
                    variable => sums[variable] += share,
                }
            }
        }
    }
    sums
}

/// The new c of a variable.
fn value(problem: &Problem, variable: usize, mut sum: i64) -> i64 {
    if problem.reference.has(Fault::ScaledSumsIn32Bits) {
        sum = i64::from((256 * sum) as i32) / 256;
    }
    let mut dividend = problem.dividend(variable, sum);
    if problem.reference.has(Fault::QuotientIn32Bits) {
        dividend = i128::from(dividend as i32);
    }
    let most = problem.reference.limit(16_384) as i128;
    let divisor = problem.divisor(variable);
    let value = problem.reference.limited_nearest(dividend, divisor, most);
    value as i64
}

/// c of an item of a triple with these rows; a blank's is -U.
fn value_of(problem: &Problem, values: &[i64], rows: &[i64; 4], item: usize) -> i64 {
    match (item, problem.reference.fault) {
        (BLANK, Some(Fault::BlankIsOne)) => UNIT,
        (BLANK, Some(Fault::BlankIsZero)) => 0,
        (BLANK, Some(Fault::BlankIsFirst)) => values[0],
        (BLANK, Some(Fault::BlankIsLast)) => values[values.len() - 1],
        (BLANK, Some(Fault::BlankRenewed)) => {
            let share = |(signs, s): (&[i64; 3], &i64)| signs[2] * s.abs();
            let sum: i64 = problem.signs.iter().zip(rows).map(share).sum();
            let divisor = 1_024 - i128::from(problem.settings.ratio);
            SOUND.limited_nearest(i128::from(-256 * sum), divisor, UNIT.into()) as i64
        }
        (BLANK, _) => -UNIT,
        (variable, _) => values[variable],
    }
}

/// Every row's new s, with the old p and the new c.
fn renewed_rows(problem: &Problem, old: &[[i64; 4]], values: &[i64]) -> Vec<[i64; 4]> {
    let reference = problem.reference;
    let mut rows = old.to_vec();
    for (triple, rows) in problem.split.triples.iter().zip(&mut rows) {
        let values = triple.map(|item| value_of(problem, values, rows, item));
        let left = reference.has(Fault::BlankRowsLeftAtZero) && triple[2] == BLANK;
        for (signs, s) in problem.signs.iter().zip(rows) {
            if left && signs[0] == signs[1] {
                continue;
            }
            let sum = (0..3).map(|i| signs[i] * values[i]).sum();
            let sum = reference.narrowed(sum, Fault::TripleSumsIn16Bits);
            *s = multiplier(*s) + sum - UNIT;
            *s = reference.narrowed(*s, Fault::RowsIn16Bits);
            if reference.has(Fault::RowsAtFormerBound) {
                *s = (*s).min(most_row(FORMER_MOST_ITERATIONS));
            }
        }
    }
    rows
}

fn changes(problem: &Problem, old: &[[i64; 4]], new: &[[i64; 4]]) -> Totals {
    let mut totals = Totals {
        multipliers: 0,
        slacks: 0,
    };
    let left_out = problem.reference.has(Fault::BlankRowsNotCounted);
    for (triple, (old, new)) in problem.split.triples.iter().zip(old.iter().zip(new)) {
        let counted = if left_out && triple[2] == BLANK { 2 } else { 4 };
        for (&old, &new) in old.iter().zip(new).take(counted) {
            totals.multipliers += square(multiplier(new) - multiplier(old));
            totals.slacks += square(slack(new) - slack(old));
        }
    }
    totals
}

fn square(change: i64) -> i128 {
    i128::from(change) * i128::from(change)
}
