//! Import: alist text to code records.

use super::numbers::Numbers;
use super::side::Side;
use crate::plain::Refused;

/// Columns and rows of a text.
fn read(text: &[u8]) -> Refused<(Side, Side)> {
    let mut numbers = Numbers::of(text);
    let [bits, checks] = [numbers.take()?, numbers.take()?];
    let [column, row] = [numbers.take()?, numbers.take()?];
    let mut columns = Side::take_degrees(&mut numbers, bits, column)?;
    let mut rows = Side::take_degrees(&mut numbers, checks, row)?;
    columns.take_lists(&mut numbers)?;
    rows.take_lists(&mut numbers)?;
    numbers.end()?;
    Ok((columns, rows))
}

/// Whether a row, sorted, is this one; most rows are so as they stand.
fn is_sorted_as(row: &[u16], sorted: &[u16]) -> bool {
    row.iter().eq(sorted) || {
        let mut row = row.to_vec();
        row.sort_unstable();
        row == sorted
    }
}

/// Whether columns and rows name the same places, each equally often.
fn agree(columns: &Side, rows: &Side) -> bool {
    let Some(turned) = columns.turned(rows.degrees.len()) else {
        return false;
    };
    let mut pairs = rows.lists().zip(turned.lists());
    rows.degrees == turned.degrees && pairs.all(|(row, turned)| is_sorted_as(row, turned))
}

fn refuse_if(refused: bool, number: u32) -> Refused<()> {
    match refused {
        true => Err(number),
        false => Ok(()),
    }
}

/// The causes against the rows as records.
fn judge(columns: &Side, rows: &Side) -> Refused<()> {
    let (bits, checks) = (columns.degrees.len(), rows.degrees.len());
    let sizes = (3..=4_096).contains(&bits) && (1..=2_048).contains(&checks);
    refuse_if(!sizes, 3)?;
    for row in rows.lists() {
        refuse_if(!(2..=32).contains(&row.len()), 4)?;
        refuse_if(row.windows(2).any(|pair| pair[0] >= pair[1]), 6)?;
    }
    let pairs = rows.degrees.iter().filter(|&&degree| degree == 2).count();
    refuse_if(rows.indices.len() + pairs - 2 * checks > 8_192, 7)?;
    refuse_if(columns.degrees.contains(&0), 8)
}

/// Writes the records; the list has just their length.
fn write(bits: usize, rows: &Side, code: &mut [u8]) {
    let (header, mut rest) = code.split_at_mut(6);
    header[..2].copy_from_slice(b"LH");
    header[2..4].copy_from_slice(&(bits as u16).to_be_bytes());
    header[4..].copy_from_slice(&(rows.degrees.len() as u16).to_be_bytes());
    for row in rows.lists() {
        let (record, after) = rest.split_at_mut(3 + 2 * row.len());
        record[..3].copy_from_slice(&[b'L', b'C', row.len() as u8]);
        for (field, index) in record[3..].chunks_exact_mut(2).zip(row) {
            field.copy_from_slice(&(index - 1).to_be_bytes());
        }
        rest = after;
    }
}

pub fn import(text: &[u8], code: &mut [u8]) -> Refused<usize> {
    let (columns, rows) = read(text)?;
    refuse_if(!agree(&columns, &rows), 19)?;
    judge(&columns, &rows)?;
    let bytes = 6 + 3 * rows.degrees.len() + 2 * rows.indices.len();
    let code = code.get_mut(..bytes).ok_or(10u32)?;
    write(columns.degrees.len(), &rows, code);
    Ok(bytes)
}
