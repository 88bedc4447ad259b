//! Strict text.

use crate::draft::{largest, Draft};
use std::iter;

/// The strict text of a draft that is a code.
pub fn write(draft: &Draft) -> Vec<u8> {
    let header = &draft.header;
    let maxima = [
        largest(&header.column_degrees),
        largest(&header.row_degrees),
    ];
    let mut text = String::new();
    line(&mut text, [header.bits.value, header.checks.value]);
    line(&mut text, maxima);
    for degrees in [&header.column_degrees, &header.row_degrees] {
        line(&mut text, degrees.iter().map(|degree| degree.value));
    }
    for (lists, maximum) in [&draft.columns, &draft.rows].into_iter().zip(maxima) {
        for list in lists {
            let values = list.entries.iter().map(|entry| entry.value);
            line(
                &mut text,
                values.chain(iter::repeat(0)).take(maximum.into()),
            );
        }
    }
    text.into_bytes()
}

fn line(text: &mut String, values: impl IntoIterator<Item = u16>) {
    for (i, value) in values.into_iter().enumerate() {
        if i > 0 {
            text.push(' ');
        }
        text.push_str(&value.to_string());
    }
    text.push('\n');
}
