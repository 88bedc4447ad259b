//! What a code looks like.

use crate::records::Code;
use std::collections::BTreeMap;
use std::fmt::{Display, Write};

/// Sizes, degrees and how many of each; a name and a value to a line.
pub fn show(code: &Code, record_bytes: usize, text_bytes: usize) -> Vec<u8> {
    let (n, m, t) = (code.bits, code.checks.len(), code.triples());
    let columns = code.column_degrees();
    let rows: Vec<usize> = code.checks.iter().map(Vec::len).collect();
    let mut text = String::new();
    line(&mut text, "bits n", n);
    line(&mut text, "checks m", m);
    line(&mut text, "triples T", t);
    line(&mut text, "variables V", n + t - m);
    line(&mut text, "rate, at least", rate(n, m));
    line(&mut text, "ones", rows.iter().sum::<usize>());
    degrees(&mut text, "columns", &columns);
    degrees(&mut text, "rows", &rows);
    line(&mut text, "bytes of records", record_bytes);
    line(&mut text, "bytes of text", text_bytes);
    text.into_bytes()
}

fn line(text: &mut String, name: &str, value: impl Display) {
    let _ = writeln!(text, "{name:<24}{value}");
}

/// The rate that independent checks give; dependent ones give more.
fn rate(n: usize, m: usize) -> String {
    let free = n.saturating_sub(m);
    format!("{free}/{n} = {:.4}", free as f64 / n as f64)
}

fn degrees(text: &mut String, name: &str, degrees: &[usize]) {
    let mut counts = BTreeMap::new();
    for &degree in degrees {
        *counts.entry(degree).or_insert(0) += 1;
    }
    for (degree, count) in counts {
        let of_degree: usize = count;
        line(text, &format!("{name} of degree {degree}"), of_degree);
    }
}
