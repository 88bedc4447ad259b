//! Export: code records to alist text.

use super::side::Side;
use super::writer::{digits, Writer};
use crate::plain::records::Code;
use crate::plain::Refused;

/// Columns and rows of code records.
fn read(code: &[u8]) -> Refused<(Side, Side)> {
    let code = Code::read(code)?;
    let rows = Side {
        degrees: code.degrees.into_iter().map(u16::from).collect(),
        indices: code.indices.into_iter().map(|bit| bit + 1).collect(),
    };
    let columns = rows.turned(code.bits).expect("indices below the bits");
    Ok((columns, rows))
}

/// Bits and checks, or the maxima.
fn pairs(columns: &Side, rows: &Side) -> [[u16; 2]; 2] {
    let count = |side: &Side| side.degrees.len() as u16;
    [[count(columns), count(rows)], [columns.most(), rows.most()]]
}

/// The bytes of these numbers, each with the byte behind it.
fn bytes_of(numbers: &[u16]) -> usize {
    numbers.iter().map(|&number| digits(number) + 1).sum()
}

/// The bytes of a side: its degrees, indices and zeros.
fn side_bytes(side: &Side) -> usize {
    let filled = side.degrees.len() * usize::from(side.most());
    let zeros = filled - side.indices.len();
    bytes_of(&side.degrees) + bytes_of(&side.indices) + 2 * zeros
}

fn text_bytes(columns: &Side, rows: &Side) -> usize {
    let pairs = pairs(columns, rows);
    bytes_of(pairs.as_flattened()) + side_bytes(columns) + side_bytes(rows)
}

/// The lists of a side, each filled to the largest degree.
fn write_lists(writer: &mut Writer, side: &Side) {
    let most = usize::from(side.most());
    let zeros = b"0 ".repeat(most);
    for list in side.lists() {
        writer.line(list, &zeros[2 * list.len()..]);
    }
}

pub fn export(code: &[u8], text: &mut [u8]) -> Refused<usize> {
    let (columns, rows) = read(code)?;
    let bytes = text_bytes(&columns, &rows);
    let text = text.get_mut(..bytes).ok_or(10u32)?;
    let mut writer = Writer::to(text);
    for pair in pairs(&columns, &rows) {
        writer.line(&pair, &[]);
    }
    writer.line(&columns.degrees, &[]);
    writer.line(&rows.degrees, &[]);
    write_lists(&mut writer, &columns);
    write_lists(&mut writer, &rows);
    Ok(bytes)
}

pub fn size(code: &[u8]) -> Refused<usize> {
    let (columns, rows) = read(code)?;
    Ok(text_bytes(&columns, &rows))
}
