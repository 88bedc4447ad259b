//! The tuned rival: four checks at a time in the lanes of SSE2, floats that
//! hold whole numbers exactly, a reciprocal instead of a division, and totals
//! only until one of them exceeds the tolerance.
//!
//! It is exact in all runs. The floats hold sizes up to 2^24, and before
//! an S could exceed that the plain rival goes on with the run. Its rows of 32 bits
//! and sums of 64 hold what 4,000 iterations can reach: s up to 131,072,000, S below
//! 2^40, and 256 S + W L below 2^48.

mod bits;
mod checks;
mod group;
mod lanes;
mod layout;
mod lists;
mod work;

use crate::plain::group::grouping;
use crate::plain::run::{decode, run, run_on, State, Task};
use group::run_frames;
use interface::{DecodeAnswer, Decoder, Lists, Settings};
use layout::{Layout, MOST_COUNT};
use work::Work;

/// The plain rival with another run.
pub struct Tuned;

impl Decoder for Tuned {
    fn decode(&self, code: &[u8], settings: Settings, costs: &[i16], lists: Lists) -> DecodeAnswer {
        decode(code, settings, costs, lists, run_tuned)
    }
}

grouping! { Tuned, run_frames }

/// With a ratio above this a quotient might not fit 32 bits.
const MOST_RATIO: u32 = 512;

/// Sizes of whole numbers that an f32 holds exactly.
const EXACT: usize = 1 << 24;

fn run_tuned(task: &Task, state: &mut State) -> (u32, bool) {
    if !is_suited(task) {
        return run(task, state);
    }
    let layout = Layout::of(task.code, task.counts);
    iterate(task, state, Work::new(&layout, task), 0, 65536)
}

/// Goes on with a run whose rows stand after so many iterations.
fn run_tuned_on(task: &Task, state: &mut State, done: u32) -> (u32, bool) {
    if !is_suited(task) {
        return run_on(task, state, done);
    }
    let layout = Layout::of(task.code, task.counts);
    let mut work = Work::new(&layout, task);
    work.resume(state.rows);
    let largest = work.largest();
    iterate(task, state, work, done, largest)
}

/// The most checks of a bit.
fn most_checks(task: &Task) -> usize {
    let bits = &task.counts[..task.code.bits];
    bits.iter().copied().max().unwrap_or(0).into()
}

fn is_suited(task: &Task) -> bool {
    most_checks(task) <= MOST_COUNT && task.settings.ratio <= MOST_RATIO
}

/// Iterations behind the k-th, until the run settles or is at its limit; no s is larger than
/// the largest yet.
fn iterate(
    task: &Task,
    state: &mut State,
    mut work: Work,
    mut k: u32,
    mut largest: usize,
) -> (u32, bool) {
    // An auxiliary lies in two triples.
    let most = most_checks(task).max(2);
    loop {
        let safe = safe_iterations(EXACT, most, largest);
        if safe == 0 {
            work.write(state);
            return run_on(task, state, k);
        }
        for _ in 0..safe {
            work.renew_bits();
            let settled = work.renew_checks(task.settings.tolerance);
            k += 1;
            if settled || k == task.settings.limit {
                work.write(state);
                return (k, settled);
            }
        }
        largest = work.largest();
    }
}

/// Iterations for which no S of so many triples exceeds the room that there is: a share is at
/// most twice the largest size of an s, which is 65,536 at first or whenever no
/// s is larger, and grows by at most 32,768.
fn safe_iterations(room: usize, count: usize, largest: usize) -> usize {
    (room / (2 * count)).saturating_sub(largest) / 32768
}

#[cfg(test)]
mod tests {
    use super::{safe_iterations, EXACT, MOST_COUNT};

    #[test]
    fn every_sum_stays_exact() {
        for count in 2..=MOST_COUNT {
            for largest in [65_536, 98_304, 262_143, 4_000_000, 131_072_000] {
                let safe = safe_iterations(EXACT, count, largest);
                assert!(safe == 0 || 2 * count * (largest + 32_768 * safe) <= EXACT);
            }
            assert!(safe_iterations(EXACT, count, 65_536) > 0);
            assert_eq!(safe_iterations(EXACT, count, 131_072_000), 0);
        }
    }
}
