//! Whether a draft is a code: the causes that follow 18, in the library's order.

use crate::draft::{Axis, Draft, List};
use crate::fault::Fault;
use crate::numbers::Number;
use crate::records::triples_of;
use std::ops::RangeInclusive;

pub const BITS: RangeInclusive<u16> = 3..=4_096;
pub const CHECKS: RangeInclusive<u16> = 1..=2_048;
pub const DEGREES: RangeInclusive<u16> = 2..=32;
pub const MOST_TRIPLES: usize = 8_192;

/// The first cause against a draft, where it shows first.
pub fn judge(draft: &Draft) -> Result<(), Fault> {
    agreement(draft)?;
    size("n", draft.header.bits, &BITS)?;
    size("m", draft.header.checks, &CHECKS)?;
    for (i, list) in draft.rows.iter().enumerate() {
        degree(i + 1, draft.header.row_degrees[i])?;
        rising(i + 1, list)?;
    }
    triples(&draft.header.row_degrees)?;
    used(&draft.header.column_degrees)
}

/// A place that a list names: its column, its row, and where the text says so.
type Named = (u16, u16, usize);

/// The places that the lists of one axis name, in order.
fn named(lists: &[List], axis: Axis) -> Vec<Named> {
    let mut places = Vec::new();
    for (own, list) in (1..=u16::MAX).zip(lists) {
        places.extend(list.entries.iter().map(|entry| match axis {
            Axis::Column => (own, entry.value, entry.at),
            Axis::Row => (entry.value, own, entry.at),
        }));
    }
    places.sort_unstable();
    places
}

/// That columns and rows name the same places, each equally often.
fn agreement(draft: &Draft) -> Result<(), Fault> {
    let columns = named(&draft.columns, Axis::Column);
    let rows = named(&draft.rows, Axis::Row);
    let (bits, checks) = (draft.header.bits.value, draft.header.checks.value);
    match excess(&columns, &rows) {
        Some(one) => Err(one.fault(Axis::Column, checks)),
        None => match excess(&rows, &columns) {
            Some(one) => Err(one.fault(Axis::Row, bits)),
            None => Ok(()),
        },
    }
}

/// A place that one axis names more often than the other.
struct Excess {
    named: Named,
    times: usize,
    other_times: usize,
}

/// The first such place of the text.
fn excess(some: &[Named], others: &[Named]) -> Option<Excess> {
    let mut first: Option<Excess> = None;
    let mut rest = others;
    let same = |a: &Named, b: &Named| (a.0, a.1) == (b.0, b.1);
    for group in some.chunk_by(same) {
        let before = |other: &Named| (other.0, other.1) < (group[0].0, group[0].1);
        rest = &rest[rest.partition_point(before)..];
        let other_times = rest
            .iter()
            .take_while(|other| same(other, &group[0]))
            .count();
        let Some(&named) = group.get(other_times) else {
            continue;
        };
        if first.as_ref().is_none_or(|first| named.2 < first.named.2) {
            first = Some(Excess {
                named,
                times: group.len(),
                other_times,
            });
        }
    }
    first
}

impl Excess {
    /// The fault, for a list of this axis; the other axis has so many lists.
    fn fault(&self, axis: Axis, others: u16) -> Fault {
        let (column, row, at) = self.named;
        let (own, other, other_axis) = match axis {
            Axis::Column => (column, row, Axis::Row),
            Axis::Row => (row, column, Axis::Column),
        };
        let what = if other > others {
            format!(
                "{axis} {own} names {other_axis} {other}, but the last {other_axis} is {others}"
            )
        } else if self.other_times == 0 {
            format!(
                "{axis} {own} names {other_axis} {other}, \
                 but {other_axis} {other} does not name {axis} {own}"
            )
        } else {
            format!(
                "{axis} {own} names {other_axis} {other} more often ({}) \
                 than {other_axis} {other} names {axis} {own} ({})",
                self.times, self.other_times
            )
        };
        Fault::new(19, at, what)
    }
}

fn size(name: &str, number: Number, range: &RangeInclusive<u16>) -> Result<(), Fault> {
    if range.contains(&number.value) {
        return Ok(());
    }
    let (least, most) = (range.start(), range.end());
    let what = format!("{name} is {}; {least} to {most} are allowed", number.value);
    Err(Fault::new(3, number.at, what))
}

fn degree(row: usize, degree: Number) -> Result<(), Fault> {
    if DEGREES.contains(&degree.value) {
        return Ok(());
    }
    let (least, most) = (DEGREES.start(), DEGREES.end());
    let what = format!(
        "row {row} has degree {}; {least} to {most} are allowed",
        degree.value
    );
    Err(Fault::new(4, degree.at, what))
}

fn rising(row: usize, list: &List) -> Result<(), Fault> {
    let falls = |pair: &&[Number]| pair[0].value >= pair[1].value;
    match list.entries.windows(2).find(falls) {
        None => Ok(()),
        Some(pair) if pair[0].value == pair[1].value => {
            let what = format!("row {row} names column {} twice", pair[1].value);
            Err(Fault::new(6, pair[1].at, what))
        }
        Some(pair) => {
            let (before, after) = (pair[0].value, pair[1].value);
            let what = format!("row {row} does not rise: {after} stands after {before}");
            Err(Fault::new(6, pair[1].at, what))
        }
    }
}

/// That the triples are within their limit; the degrees are within theirs.
fn triples(degrees: &[Number]) -> Result<(), Fault> {
    let mut sum = 0;
    for (i, degree) in degrees.iter().enumerate() {
        sum += triples_of(degree.value.into());
        if sum > MOST_TRIPLES {
            let what = format!("up to row {} the checks make {sum} triples", i + 1);
            return Err(Fault::new(7, degree.at, what));
        }
    }
    Ok(())
}

fn used(degrees: &[Number]) -> Result<(), Fault> {
    match degrees.iter().position(|degree| degree.value == 0) {
        None => Ok(()),
        Some(column) => {
            let what = format!("column {} has degree 0", column + 1);
            Err(Fault::new(8, degrees[column].at, what))
        }
    }
}
