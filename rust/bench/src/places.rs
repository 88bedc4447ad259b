//! Places of columns and rows: those of codes, and those over as many columns and
//! rows as a text can have.

use compare::alist::Plan;
use compare::codes::{regular_code, Code};
use compare::random::Random;

/// The most columns or rows of a text.
pub const MOST: usize = 65_535;

const SEED: u64 = 2_026;

/// A code whose text is the longest: the first bit lies in all checks.
pub fn largest_code() -> Code {
    let others = |check: usize| (0..5).map(move |i| 1 + (5 * check + i) % 4_095);
    let check = |check| {
        let mut bits: Vec<usize> = others(check).chain([0]).collect();
        bits.sort_unstable();
        bits
    };
    Code {
        bits: 4_096,
        checks: (0..2_048).map(check).collect(),
    }
}

pub fn regular(bits: usize) -> Code {
    regular_code(&mut Random::new(SEED + bits as u64), bits, 3, 6)
}

/// Columns and rows without places.
pub fn none(columns: usize, rows: usize) -> Plan {
    Plan {
        columns: vec![Vec::new(); columns],
        rows: vec![Vec::new(); rows],
        excess: [0, 0],
    }
}

fn name(plan: &mut Plan, column: usize, row: usize) {
    plan.columns[column].push(row + 1);
    plan.rows[row].push(column + 1);
}

/// Lengthens the first column and the first row to these degrees, by places in the
/// middle of the others.
fn lengthen(plan: &mut Plan, [column, row]: [usize; 2]) {
    for middle in (plan.rows.len() / 2..).take(column.saturating_sub(plan.columns[0].len())) {
        name(plan, 0, middle);
    }
    for middle in (plan.columns.len() / 2..).take(row.saturating_sub(plan.rows[0].len())) {
        name(plan, middle, 0);
    }
}

/// Few places, all in the first column and the first row, which have these degrees:
/// the other lists are zeros.
pub fn zeros(degrees: [usize; 2]) -> Plan {
    let mut plan = none(MOST, MOST);
    lengthen(&mut plan, degrees);
    plan
}

/// Every place.
pub fn all(columns: usize, rows: usize) -> Plan {
    let mut plan = none(columns, rows);
    for column in 0..columns {
        for row in 0..rows {
            name(&mut plan, column, row);
        }
    }
    plan
}

/// The last row names the last column, which does not name it.
pub fn spoil_last(mut plan: Plan) -> Plan {
    let columns = plan.columns.len();
    plan.rows.last_mut().expect("a row").push(columns);
    plan
}

/// So many of these, each about as often as another, in any order.
fn shared(random: &mut Random, mut all: Vec<usize>, count: usize) -> Vec<usize> {
    random.shuffle(&mut all);
    let mut shared: Vec<usize> = all.into_iter().cycle().take(count).collect();
    random.shuffle(&mut shared);
    shared
}

/// The first and the last of columns or rows, so many each.
fn ends(count: usize) -> Vec<usize> {
    (0..count).chain(MOST - count..MOST).collect()
}

/// So many places, their columns and their rows among so many at each end; lists in
/// any order. The first column and the first row have at least these degrees.
pub fn outer(counts: [usize; 2], places: usize, degrees: [usize; 2]) -> Plan {
    let mut random = Random::new(SEED);
    let mut plan = none(MOST, MOST);
    let [columns, rows] = counts.map(|count| shared(&mut random, ends(count), places));
    for (column, row) in columns.into_iter().zip(rows) {
        name(&mut plan, column, row);
    }
    lengthen(&mut plan, degrees);
    plan
}
