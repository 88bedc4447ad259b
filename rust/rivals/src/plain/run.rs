//! The decoder: causes, then the run, in place on the lent lists.

use super::records::Code;
use super::split::fill;
use super::Refused;
use interface::{DecodeAnswer, Lists, Settings};

const UNIT: i64 = 16384;

/// What a run reads.
pub struct Task<'a> {
    pub code: &'a Code,
    pub settings: Settings,
    pub costs: &'a [i16],
    pub triples: &'a [u16],
    pub counts: &'a [u16],
}

/// What a run writes, each list of exactly the length it needs.
pub struct State<'a> {
    pub sums: &'a mut [i64],
    pub values: &'a mut [i16],
    pub rows: &'a mut [i32],
}

/// Runs from the start; the iterations done, and whether it settled.
pub type Run = fn(&Task, &mut State) -> (u32, bool);

/// The decoder's call around any way to run.
pub fn decode(
    code: &[u8],
    settings: Settings,
    costs: &[i16],
    lists: Lists,
    run: Run,
) -> DecodeAnswer {
    match accept(code, settings, costs, &lists) {
        Ok(code) => decode_accepted(&code, settings, costs, lists, run),
        Err(number) => DecodeAnswer {
            number,
            ..DecodeAnswer::default()
        },
    }
}

fn accept(code: &[u8], settings: Settings, costs: &[i16], lists: &Lists) -> Refused<Code> {
    let code = Code::read(code)?;
    if !in_range(settings) {
        Err(11)
    } else if costs.len() != code.bits {
        Err(12)
    } else if costs.contains(&i16::MIN) {
        Err(13)
    } else if !has_room(&code, 1, lists) {
        Err(10)
    } else {
        Ok(code)
    }
}

/// Whether so many frames of a code have room in the lists.
pub fn has_room(code: &Code, frames: usize, lists: &Lists) -> bool {
    let (triples, variables) = (code.triples(), code.variables());
    lists.triples.len() >= 3 * triples
        && lists.counts.len() >= variables
        && lists.sums.len() >= frames * variables
        && lists.values.len() >= frames * variables
        && lists.rows.len() >= frames * 4 * triples
        && lists.word.len() >= frames * code.bits
}

pub fn in_range(settings: Settings) -> bool {
    let Settings {
        weight,
        ratio,
        limit,
        ..
    } = settings;
    weight != 0 && weight <= 65535 && ratio <= 1023 && limit != 0 && limit <= 4000
}

/// The run on accepted input, and the word if there is one.
fn decode_accepted(
    code: &Code,
    settings: Settings,
    costs: &[i16],
    lists: Lists,
    run: Run,
) -> DecodeAnswer {
    let (triples, variables) = (code.triples(), code.variables());
    fill(code, lists.triples, lists.counts);
    let task = Task {
        code,
        settings,
        costs,
        triples: &lists.triples[..3 * triples],
        counts: &lists.counts[..variables],
    };
    let mut state = State {
        sums: &mut lists.sums[..variables],
        values: &mut lists.values[..variables],
        rows: &mut lists.rows[..4 * triples],
    };
    let end = run(&task, &mut state);
    conclude(code, end, &lists.values[..code.bits], lists.word)
}

/// Writes the word if there is one, and tells how the run ended.
pub fn conclude(code: &Code, end: (u32, bool), values: &[i16], word: &mut [u8]) -> DecodeAnswer {
    let (number, place) = write_word(code, values, word);
    let (k, settled) = end;
    DecodeAnswer {
        number,
        place,
        k,
        settled: settled.into(),
    }
}

/// Writes the word if there is one; the outcome's number and place.
fn write_word(code: &Code, values: &[i16], word: &mut [u8]) -> (u32, usize) {
    if let Some(bit) = values.iter().position(|&value| value == 0) {
        return (16, bit);
    }
    let bits: Vec<u8> = values.iter().map(|&value| u8::from(value > 0)).collect();
    if let Some(check) = code.odd_check(&bits) {
        return (17, check);
    }
    word[..bits.len()].copy_from_slice(&bits);
    (0, 0)
}

pub fn run(task: &Task, state: &mut State) -> (u32, bool) {
    state.rows.fill(0);
    run_on(task, state, 0)
}

/// Goes on with a run whose rows stand after so many iterations.
pub fn run_on(task: &Task, state: &mut State, done: u32) -> (u32, bool) {
    for k in done + 1.. {
        add_rows(task, state);
        renew_values(task, state);
        let (multipliers, slacks) = renew_rows(task, state);
        let most = u64::from(task.settings.tolerance);
        let settled = multipliers <= most && slacks <= most;
        if settled || k == task.settings.limit {
            return (k, settled);
        }
    }
    unreachable!("the limit is at least 1")
}

/// S of every variable; a blank is none.
fn add_rows(task: &Task, state: &mut State) {
    state.sums.fill(0);
    let triples = task.triples.chunks_exact(3);
    for (triple, rows) in triples.zip(state.rows.chunks_exact(4)) {
        let [a, b, c, d] = [rows[0], rows[1], rows[2], rows[3]].map(|s| i64::from(s.abs()));
        state.sums[usize::from(triple[0])] += a - b - c + d;
        state.sums[usize::from(triple[1])] += b - a - c + d;
        if let Some(sum) = state.sums.get_mut(usize::from(triple[2])) {
            *sum += c - a - b + d;
        }
    }
}

/// c of every variable.
fn renew_values(task: &Task, state: &mut State) {
    let weight = i64::from(task.settings.weight);
    let ratio = i64::from(task.settings.ratio);
    let costs = task.costs.iter().map(|&cost| i64::from(cost));
    let costs = costs.chain(std::iter::repeat(0));
    let variables = state.values.iter_mut().zip(state.sums.iter());
    for ((value, sum), (count, cost)) in variables.zip(task.counts.iter().zip(costs)) {
        let dividend = -(256 * sum + weight * cost);
        let divisor = 1024 * i64::from(*count) - ratio;
        *value = quotient(dividend, divisor).clamp(-UNIT, UNIT) as i16;
    }
}

/// Rounded to nearest, halves away from zero.
fn quotient(dividend: i64, divisor: i64) -> i64 {
    if dividend < 0 {
        (2 * dividend - divisor) / (2 * divisor)
    } else {
        (2 * dividend + divisor) / (2 * divisor)
    }
}

/// s of every row; the totals of the squared changes of p and z.
fn renew_rows(task: &Task, state: &mut State) -> (u64, u64) {
    let (mut multipliers, mut slacks) = (0, 0);
    let triples = task.triples.chunks_exact(3);
    for (triple, rows) in triples.zip(state.rows.chunks_exact_mut(4)) {
        let value = |place: usize| i32::from(state.values[usize::from(triple[place])]);
        // A blank's c is -U.
        let third = state.values.get(usize::from(triple[2]));
        let third = third.map_or(-UNIT as i32, |&c| c.into());
        let [a, b, c] = [value(0), value(1), third];
        let sums = [a - b - c, b - a - c, c - a - b, a + b + c];
        for (s, sum) in rows.iter_mut().zip(sums) {
            let old = *s;
            let new = old.max(0) + sum - UNIT as i32;
            *s = new;
            multipliers += square(new.max(0) - old.max(0));
            slacks += square(new.min(0) - old.min(0));
        }
    }
    (multipliers, slacks)
}

fn square(change: i32) -> u64 {
    let size = u64::from(change.unsigned_abs());
    size * size
}
