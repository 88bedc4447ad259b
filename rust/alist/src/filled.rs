//! Reading by count: each list is filled to the maximum, and lines mean nothing.

use crate::draft::{largest, Axis, Cursor, Draft, Due, Header, List, Reading};
use crate::fault::Fault;
use crate::numbers::Number;

/// A strict text's header and lists.
pub fn strict(mut cursor: Cursor) -> Result<Draft, Fault> {
    let header = header(&mut cursor, check_maximum)?;
    let columns = columns(&mut cursor, &header)?;
    let rows = rows(&mut cursor, &header)?;
    cursor.end()?;
    Ok(Draft {
        header,
        columns,
        rows,
    })
}

/// Header and lists where a maximum may be above the largest degree, and the rows
/// may be left out.
pub fn tolerant(mut cursor: Cursor) -> Result<Reading, Fault> {
    let header = header(&mut cursor, check_degrees)?;
    let columns = columns(&mut cursor, &header)?;
    let rows = if cursor.rest.is_empty() {
        None
    } else {
        Some(rows(&mut cursor, &header)?)
    };
    cursor.end()?;
    Ok(Reading {
        header,
        columns,
        rows,
    })
}

/// Judges a maximum and its degrees.
type Check = fn(Axis, Number, &[Number]) -> Result<(), Fault>;

fn header(cursor: &mut Cursor, check: Check) -> Result<Header, Fault> {
    let bits = cursor.next(Due::Bits)?;
    let checks = cursor.next(Due::Checks)?;
    let column_maximum = cursor.next(Due::Maximum(Axis::Column))?;
    let row_maximum = cursor.next(Due::Maximum(Axis::Row))?;
    let column_degrees = cursor.degrees(Axis::Column, bits)?;
    check(Axis::Column, column_maximum, &column_degrees)?;
    let row_degrees = cursor.degrees(Axis::Row, checks)?;
    check(Axis::Row, row_maximum, &row_degrees)?;
    Ok(Header {
        bits,
        checks,
        column_maximum,
        row_maximum,
        column_degrees,
        row_degrees,
    })
}

/// That the maximum is the largest degree.
fn check_maximum(axis: Axis, maximum: Number, degrees: &[Number]) -> Result<(), Fault> {
    let largest = largest(degrees);
    if maximum.value > largest {
        let what = format!(
            "the maximum {axis} degree is {}, but the largest {axis} degree is {largest}",
            maximum.value
        );
        return Err(Fault::new(18, maximum.at, what));
    }
    check_degrees(axis, maximum, degrees)
}

/// That no degree is above the maximum.
fn check_degrees(axis: Axis, maximum: Number, degrees: &[Number]) -> Result<(), Fault> {
    let above = |degree: &Number| degree.value > maximum.value;
    match degrees.iter().position(above) {
        None => Ok(()),
        Some(list) => {
            let what = format!(
                "{axis} {} has degree {}, but the maximum {axis} degree is {}",
                list + 1,
                degrees[list].value,
                maximum.value
            );
            Err(Fault::new(18, degrees[list].at, what))
        }
    }
}

fn columns(cursor: &mut Cursor, header: &Header) -> Result<Vec<List>, Fault> {
    lists(
        cursor,
        Axis::Column,
        header.column_maximum,
        &header.column_degrees,
    )
}

fn rows(cursor: &mut Cursor, header: &Header) -> Result<Vec<List>, Fault> {
    lists(cursor, Axis::Row, header.row_maximum, &header.row_degrees)
}

fn lists(
    cursor: &mut Cursor,
    axis: Axis,
    maximum: Number,
    degrees: &[Number],
) -> Result<Vec<List>, Fault> {
    let list = |(i, degree): (usize, &Number)| {
        let mut list = List::default();
        for entry in 1..=maximum.value {
            let number = cursor.next(Due::Entry(axis, i + 1, entry.into()))?;
            check_entry(axis, i + 1, entry, *degree, number)?;
            match number.value {
                0 => list.zeros += 1,
                _ => list.entries.push(number),
            }
        }
        Ok(list)
    };
    degrees.iter().enumerate().map(list).collect()
}

/// That the entry is an index up to the degree, and 0 after it.
fn check_entry(
    axis: Axis,
    list: usize,
    entry: u16,
    degree: Number,
    number: Number,
) -> Result<(), Fault> {
    let (due, degree) = (Due::Entry(axis, list, entry.into()), degree.value);
    let what = match (entry <= degree, number.value) {
        (true, 0) => format!("{due} is 0, but the {axis} has degree {degree}"),
        (false, value) if value > 0 => {
            format!("{due} is {value} where 0 is due: the {axis} has degree {degree}")
        }
        _ => return Ok(()),
    };
    Err(Fault::new(18, number.at, what))
}
