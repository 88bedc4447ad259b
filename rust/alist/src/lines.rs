//! Reading by lines: each list stands on a line of its own, with or without fill.

use crate::draft::{Axis, Cursor, Due, Header, List, Reading};
use crate::fault::Fault;
use crate::numbers::Number;

/// Header and lists; the rows may be left out.
pub fn read(mut cursor: Cursor) -> Result<Reading, Fault> {
    let header = header(&mut cursor)?;
    let columns = lists(&mut cursor, Axis::Column, &header.column_degrees)?;
    let rows = if cursor.rest.is_empty() {
        None
    } else {
        Some(lists(&mut cursor, Axis::Row, &header.row_degrees)?)
    };
    cursor.end()?;
    Ok(Reading {
        header,
        columns,
        rows,
    })
}

/// Whether a text that cannot be read seems to be meant by lines: it begins with
/// two pairs, or has a line for each pair and list.
pub fn seems_meant(numbers: &[Number]) -> bool {
    let ends: Vec<bool> = numbers.iter().take(4).map(|number| number.last).collect();
    let size = |place: usize| numbers.get(place).map_or(0, |size| size.value.into());
    let lines = numbers.iter().filter(|number| number.last).count();
    ends == [false, true, false, true] || lines == 4 + size(0) + size(1) || lines == 4 + size(0)
}

fn header(cursor: &mut Cursor) -> Result<Header, Fault> {
    let bits = cursor.next(Due::Bits)?;
    let checks = cursor.next(Due::Checks)?;
    ends_line(cursor, checks, "n and m")?;
    let column_maximum = cursor.next(Due::Maximum(Axis::Column))?;
    let row_maximum = cursor.next(Due::Maximum(Axis::Row))?;
    ends_line(cursor, row_maximum, "the maximum degrees")?;
    Ok(Header {
        bits,
        checks,
        column_maximum,
        row_maximum,
        column_degrees: degrees(cursor, Axis::Column, bits)?,
        row_degrees: degrees(cursor, Axis::Row, checks)?,
    })
}

/// The degrees; they may take several lines, and end with one.
fn degrees(cursor: &mut Cursor, axis: Axis, count: Number) -> Result<Vec<Number>, Fault> {
    let degrees = cursor.degrees(axis, count)?;
    if let Some(&degree) = degrees.last() {
        ends_line(
            cursor,
            degree,
            &format!("the {} {axis} degrees", count.value),
        )?;
    }
    Ok(degrees)
}

/// That the line ends after this number.
fn ends_line(cursor: &Cursor, number: Number, what: &str) -> Result<(), Fault> {
    match cursor.rest.first() {
        Some(next) if !number.last => {
            let what = format!("{} stands on the line of {what}, after them", next.value);
            Err(Fault::new(18, next.at, what))
        }
        _ => Ok(()),
    }
}

fn lists(cursor: &mut Cursor, axis: Axis, degrees: &[Number]) -> Result<Vec<List>, Fault> {
    let list = |(i, degree): (usize, &Number)| {
        let fill_begins = cursor.rest.first().is_some_and(|next| next.value == 0);
        if degree.value == 0 && !fill_begins {
            return Ok(List::default());
        }
        list(line(cursor, axis, i + 1)?, axis, i + 1, *degree)
    };
    degrees.iter().enumerate().map(list).collect()
}

/// The numbers up to the line's end.
fn line<'a>(cursor: &mut Cursor<'a>, axis: Axis, list: usize) -> Result<&'a [Number], Fault> {
    let numbers = cursor.rest;
    let mut length = 0;
    loop {
        length += 1;
        if cursor.next(Due::Entry(axis, list, length))?.last {
            return Ok(&numbers[..length]);
        }
    }
}

/// A line as a list: as many indices as the degree says, then zeros.
fn list(line: &[Number], axis: Axis, place: usize, degree: Number) -> Result<List, Fault> {
    let due = usize::from(degree.value);
    let indices = line.iter().take_while(|number| number.value != 0).count();
    let (entries, fill) = line.split_at(indices);
    let fault = |number: &Number, what: String| Err(Fault::new(18, number.at, what));
    if let Some(number) = fill.iter().find(|number| number.value != 0) {
        let what = format!(
            "{} stands after a 0 in the list of {axis} {place}",
            number.value
        );
        return fault(&fill[0], what + from_zero(line.len(), due));
    }
    if indices != due {
        let what = format!("{axis} {place} has degree {due}, but its line has {indices} indices");
        let wrong = line.get(indices.min(due)).unwrap_or(&line[line.len() - 1]);
        return fault(wrong, what + from_zero(line.len(), due));
    }
    Ok(List {
        entries: entries.to_vec(),
        zeros: fill.len(),
    })
}

/// A hint where a line would have its degree's count if 0 were an index.
fn from_zero(length: usize, due: usize) -> &'static str {
    if length == due {
        "; if the file counts from 0, add 1 to each index first"
    } else {
        ""
    }
}
