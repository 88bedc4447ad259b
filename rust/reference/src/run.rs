//! A whole run, and the reading of its values as a word.

use crate::cause::{number_of, Cause};
use crate::fault::Fault;
use crate::iteration::{iterate, start, Iterate, Problem, Totals};
use crate::records::Code;
use crate::Reference;

/// The most iterations of a run: K is at most this.
pub const MOST_ITERATIONS: usize = 4_000;

/// What it was before request L2 of document 02.
pub const FORMER_MOST_ITERATIONS: usize = 1_000;

/// How a run ended.
#[derive(Clone, Debug, PartialEq, Eq)]
pub struct End {
    pub last: Iterate,
    pub k: u32,
    pub settled: bool,
}

/// Runs to the end and shows each iteration to `watch`.
pub fn run(problem: &Problem, watch: &mut dyn FnMut(&Iterate, Totals)) -> End {
    let limit = limit(problem);
    let mut last = start(problem);
    let mut k = 0;
    loop {
        let (next, totals) = iterate(problem, &last);
        last = next;
        k += 1;
        watch(&last, totals);
        let at_limit = k >= limit;
        let ignored = at_limit && problem.reference.has(Fault::NotSettledAtLimit);
        let settled = within(problem, totals) && !ignored;
        if settled || at_limit {
            return End { last, k, settled };
        }
    }
}

/// The iteration after which the run stops, settled or not.
fn limit(problem: &Problem) -> u32 {
    let limit = problem.settings.limit;
    match problem.reference.fault {
        Some(Fault::OneIterationMore) => limit + 1,
        Some(Fault::CutAtFormerLimit) => limit.min(FORMER_MOST_ITERATIONS as u32),
        _ => limit,
    }
}

/// Whether neither total exceeds the tolerance.
fn within(problem: &Problem, totals: Totals) -> bool {
    let most = i128::from(problem.settings.tolerance);
    if problem.reference.has(Fault::TotalsTogether) {
        return totals.multipliers + totals.slacks <= most;
    }
    totals.multipliers <= most && totals.slacks <= most
}

/// What the values of the code bits say: the outcome's number and place, and
/// the bits, which are a word where the number is 0.
pub struct Reading {
    pub number: u32,
    pub place: usize,
    pub bits: Vec<u8>,
}

impl Reference {
    pub(crate) fn reading(self, code: &Code, values: &[i64]) -> Reading {
        let mut bits: Vec<u8> = values.iter().map(|&c| u8::from(c > 0)).collect();
        bits.truncate(code.bits);
        if self.has(Fault::SameWordEachTime) {
            bits.fill(0);
        }
        let zero = self.undecided(code, values);
        let odd = self.first_odd_check(code, &bits);
        let judged = self.judge(&[
            (Cause::Undecided, zero.is_some()),
            (Cause::NotCodeword, odd.is_some()),
        ]);
        let place = match judged {
            Ok(()) => None,
            Err(Cause::Undecided) => zero,
            Err(_) => odd,
        };
        Reading {
            number: number_of(judged),
            place: place.unwrap_or(0),
            bits,
        }
    }

    /// The lowest code bit with c = 0.
    fn undecided(self, code: &Code, values: &[i64]) -> Option<usize> {
        let mut judged = &values[..code.bits];
        if self.has(Fault::AuxiliariesUndecided) {
            judged = values;
        }
        if self.has(Fault::HighestUndecided) {
            return judged.iter().rposition(|&c| c == 0);
        }
        judged.iter().position(|&c| c == 0)
    }
}
