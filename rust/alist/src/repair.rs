//! Common variants of alist text, made into strict text. The end of a list must be
//! told twice, by its degree and besides by its line's end or by fill to the
//! maximum; then no reading but one is left.

use crate::changes::{Changes, Kind};
use crate::clean::clean;
use crate::draft::{Cursor, Draft, Header, List, Reading};
use crate::fault::Fault;
use crate::judge::judge;
use crate::numbers::{numbers, Number};
use crate::write::write;
use crate::{filled, lines, notes};

/// A strict text of the same code, and what was changed.
#[derive(Clone, Debug)]
pub struct Repaired {
    pub text: Vec<u8>,
    pub changes: Changes,
}

/// Makes a strict text, or tells what stands in the way.
pub fn repair(text: &[u8]) -> Result<Repaired, Fault> {
    let mut changes = Changes::default();
    let clean = clean(text, &mut changes);
    let (numbers, stop) = numbers(&clean);
    if let Some(fault) = stop {
        return Err(fault);
    }
    let reading = read(&numbers, text.len())?;
    notes::maxima(&reading.header, &mut changes);
    notes::fill(&clean, &reading, &mut changes);
    let form = notes::form(text, &clean, &numbers, &reading);
    let mut draft = complete(reading, &mut changes)?;
    put_in_order(&mut draft.rows, Kind::RowOrder, &mut changes);
    put_in_order(&mut draft.columns, Kind::ColumnOrder, &mut changes);
    judge(&draft)?;
    changes.0.extend(form.0);
    Ok(Repaired {
        text: write(&draft),
        changes,
    })
}

/// Reads by lines, or else by count.
fn read(numbers: &[Number], length: usize) -> Result<Reading, Fault> {
    let cursor = || Cursor {
        rest: numbers,
        stop: None,
        length,
    };
    lines::read(cursor()).or_else(|by_lines| {
        filled::tolerant(cursor()).map_err(|by_count| {
            if lines::seems_meant(numbers) {
                by_lines
            } else {
                by_count
            }
        })
    })
}

/// The draft; rows that the text leaves out are made from the columns.
fn complete(reading: Reading, changes: &mut Changes) -> Result<Draft, Fault> {
    let (header, columns) = (reading.header, reading.columns);
    let rows = match reading.rows {
        Some(rows) => rows,
        None => {
            let rows = rows_of(&header, &columns)?;
            let at = columns.iter().filter_map(|list| list.entries.last());
            let end = at.map(|entry| entry.at).max().unwrap_or(0);
            changes.note(Kind::RowsMissing, rows.len(), end);
            rows
        }
    };
    Ok(Draft {
        header,
        columns,
        rows,
    })
}

/// The rows that the columns name; their degrees must be the header's.
fn rows_of(header: &Header, columns: &[List]) -> Result<Vec<List>, Fault> {
    let mut rows = vec![List::default(); header.row_degrees.len()];
    for (column, list) in (1..=u16::MAX).zip(columns) {
        for entry in &list.entries {
            let row = rows.get_mut(usize::from(entry.value) - 1);
            let row = row.ok_or_else(|| no_such_row(column, *entry, header.checks))?;
            row.entries.push(Number {
                value: column,
                ..*entry
            });
        }
    }
    let wrong = |(degree, row): &(&Number, &List)| row.entries.len() != degree.value.into();
    match header
        .row_degrees
        .iter()
        .zip(&rows)
        .position(|pair| wrong(&pair))
    {
        None => Ok(rows),
        Some(i) => {
            let (degree, named) = (header.row_degrees[i], rows[i].entries.len());
            let (row, due) = (i + 1, degree.value);
            let what = format!("row {row} has degree {due}, but {named} columns name it");
            Err(Fault::new(19, degree.at, what))
        }
    }
}

fn no_such_row(column: u16, entry: Number, rows: Number) -> Fault {
    let (row, rows) = (entry.value, rows.value);
    let what = format!("column {column} names row {row}, but the last row is {rows}");
    Fault::new(19, entry.at, what)
}

fn put_in_order(lists: &mut [List], kind: Kind, changes: &mut Changes) {
    for list in lists {
        let falls = |pair: &&[Number]| pair[0].value > pair[1].value;
        if let Some(pair) = list.entries.windows(2).find(falls) {
            changes.note(kind, 1, pair[1].at);
            list.entries.sort_by_key(|entry| entry.value);
        }
    }
}
