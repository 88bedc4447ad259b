//! What a repair changes beside the bytes that `clean` changes.

use crate::changes::{Changes, Kind};
use crate::draft::{largest, Axis, Header, Reading};
use crate::numbers::{after, Number};

/// Maxima that are not the largest degree.
pub fn maxima(header: &Header, changes: &mut Changes) {
    let sides = [
        (Axis::Column, header.column_maximum, &header.column_degrees),
        (Axis::Row, header.row_maximum, &header.row_degrees),
    ];
    for (axis, maximum, degrees) in sides {
        let (given, largest) = (maximum.value, largest(degrees));
        let wrong = usize::from(given != largest);
        changes.note(Kind::Maximum(axis, given, largest), wrong, maximum.at);
    }
}

/// Fill that is missing, or goes beyond the largest degree.
pub fn fill(text: &[u8], reading: &Reading, changes: &mut Changes) {
    let header = &reading.header;
    let sides = [
        (Some(&reading.columns), &header.column_degrees),
        (reading.rows.as_ref(), &header.row_degrees),
    ];
    for (lists, degrees) in sides {
        let largest = usize::from(largest(degrees));
        for list in lists.into_iter().flatten() {
            let due = largest - list.entries.len();
            let at = list.entries.last().map_or(0, |entry| after(text, entry.at));
            changes.note(Kind::FillAdded, due.saturating_sub(list.zeros), at);
            changes.note(Kind::FillDropped, list.zeros.saturating_sub(due), at);
        }
    }
}

/// What strict text allows and its normal form does not have; `given` is the text
/// before it was made clean.
pub fn form(given: &[u8], clean: &[u8], numbers: &[Number], reading: &Reading) -> Changes {
    let mut changes = Changes::default();
    leading_zeros(clean, numbers, &mut changes);
    spacing(given, clean, &mut changes);
    lines(numbers, reading, &mut changes);
    changes
}

fn leading_zeros(text: &[u8], numbers: &[Number], changes: &mut Changes) {
    for number in numbers {
        let leading = text[number.at] == b'0' && after(text, number.at) > number.at + 1;
        changes.note(Kind::LeadingZeros, usize::from(leading), number.at);
    }
}

/// Blanks that are not one space or one line end.
fn spacing(given: &[u8], clean: &[u8], changes: &mut Changes) {
    let is_blank = |byte: &u8| *byte == b' ' || *byte == b'\n';
    let mut at = 0;
    for run in clean.chunk_by(|a, b| is_blank(a) == is_blank(b)) {
        let end = at + run.len();
        if is_blank(&run[0]) {
            let blanks = (at..end).filter(|&i| is_counted(given, i)).count();
            let due = usize::from(at > 0);
            let ends = end < clean.len() || run.contains(&b'\n');
            changes.note(Kind::Spacing, usize::from(blanks != due || !ends), at);
        } else if end == clean.len() {
            changes.note(Kind::Spacing, 1, end);
        }
        at = end;
    }
}

/// Whether the byte is a blank; CR LF counts as one.
fn is_counted(given: &[u8], at: usize) -> bool {
    match given[at] {
        b'\r' => given.get(at + 1) != Some(&b'\n'),
        byte => matches!(byte, b' ' | b'\t' | b'\n' | 0x0B | 0x0C),
    }
}

/// Pairs and lists that are not on a line of their own.
fn lines(mut numbers: &[Number], reading: &Reading, changes: &mut Changes) {
    let header = &reading.header;
    let front = [2, 2, header.column_degrees.len(), header.row_degrees.len()];
    let lists = reading.columns.iter().chain(reading.rows.iter().flatten());
    let lists = lists.map(|list| list.entries.len() + list.zeros);
    for length in front.into_iter().chain(lists) {
        let (list, rest) = numbers.split_at(length.min(numbers.len()));
        numbers = rest;
        if let Some((last, others)) = list.split_last() {
            let torn = !last.last || others.iter().any(|number| number.last);
            changes.note(Kind::Lines, usize::from(torn), list[0].at);
        }
    }
}

#[cfg(test)]
mod tests {
    use super::*;
    use crate::clean::clean;

    #[test]
    fn spacing_is_noted_where_it_is_not_plain() {
        for (text, places) in [
            (&b"7 3\n1 4\n"[..], vec![]),
            (b"7 3\r\n1\t4\r\n", vec![]),
            (b"\xEF\xBB\xBF7 3\n\0", vec![]),
            (b"7  3\n", vec![(1, 1)]),
            (b"7 3 \n1 4\n\n", vec![(2, 3)]),
            (b" 7 3\n", vec![(1, 0)]),
            (b"7 3", vec![(1, 3)]),
            (b"7 3 ", vec![(1, 3)]),
        ] {
            let clean = clean(text, &mut Changes::default());
            let mut changes = Changes::default();
            spacing(text, &clean, &mut changes);
            let found: Vec<_> = changes.0.iter().map(|c| (c.times, c.at)).collect();
            assert_eq!(found, places, "{text:?}");
        }
    }
}
