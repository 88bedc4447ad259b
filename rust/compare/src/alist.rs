//! Alist texts: columns and rows, sound or not, and ways to write them.

use crate::codes::Code;
use crate::random::Random;
use std::fmt::Write;

/// The lists of a text, with indices from 1; degrees and maxima follow from them.
#[derive(Clone, Debug)]
pub struct Plan {
    pub columns: Vec<Vec<usize>>,
    pub rows: Vec<Vec<usize>>,
    /// By how much the maximum of columns and that of rows exceed the largest degree.
    pub excess: [usize; 2],
}

impl Plan {
    pub fn of(code: &Code) -> Plan {
        let mut plan = Plan {
            columns: vec![Vec::new(); code.bits],
            rows: Vec::new(),
            excess: [0, 0],
        };
        for check in &code.checks {
            plan.add_row(check.iter().map(|bit| bit + 1).collect());
        }
        plan
    }

    /// Adds a row, and its place to every column that it names.
    pub fn add_row(&mut self, row: Vec<usize>) {
        let place = self.rows.len() + 1;
        for &bit in &row {
            self.columns[bit - 1].push(place);
        }
        self.rows.push(row);
    }

    pub fn shuffle_columns(&mut self, random: &mut Random) {
        for column in &mut self.columns {
            random.shuffle(column);
        }
    }

    /// The lines of the text: sizes, maxima, degrees and lists.
    pub fn lines(&self) -> Vec<Vec<usize>> {
        let maxima = [
            largest(&self.columns) + self.excess[0],
            largest(&self.rows) + self.excess[1],
        ];
        let mut lines = vec![
            vec![self.columns.len(), self.rows.len()],
            maxima.to_vec(),
            self.columns.iter().map(Vec::len).collect(),
            self.rows.iter().map(Vec::len).collect(),
        ];
        lines.extend(self.columns.iter().map(|list| filled(list, maxima[0])));
        lines.extend(self.rows.iter().map(|list| filled(list, maxima[1])));
        lines
    }

    pub fn numbers(&self) -> Vec<usize> {
        self.lines().concat()
    }

    /// The bytes of its records.
    pub fn record_bytes(&self) -> usize {
        6 + self.rows.iter().map(|row| 3 + 2 * row.len()).sum::<usize>()
    }
}

fn largest(lists: &[Vec<usize>]) -> usize {
    lists.iter().map(Vec::len).max().unwrap_or(0)
}

fn filled(list: &[usize], length: usize) -> Vec<usize> {
    let mut list = list.to_vec();
    list.resize(length, 0);
    list
}

/// Lines as an export writes them.
pub fn text_of(lines: &[Vec<usize>]) -> Vec<u8> {
    let mut text = String::new();
    for line in lines {
        for number in line {
            let _ = write!(text, "{number} ");
        }
        text.pop();
        text.push('\n');
    }
    text.into()
}

/// How numbers are set apart, and how many zeros may lead them.
struct Style {
    separators: &'static [&'static str],
    ends: &'static [&'static str],
    most_zeros: usize,
}

const STYLES: [Style; 4] = [
    Style {
        separators: &[" "],
        ends: &[""],
        most_zeros: 0,
    },
    Style {
        separators: &["\n"],
        ends: &["", "\n"],
        most_zeros: 1,
    },
    Style {
        separators: &[" ", " ", "\n", "  ", "\n\n", " \n ", "\n    "],
        ends: &["", " ", "\n", "\n\n  \n"],
        most_zeros: 0,
    },
    Style {
        separators: &[" ", "\n", "  "],
        ends: &["", "", " ", "\n"],
        most_zeros: 25,
    },
];

/// Numbers in some style of separators and leading zeros.
pub fn styled(random: &mut Random, numbers: &[usize]) -> Vec<u8> {
    let style = &STYLES[random.below(STYLES.len())];
    let mut text = random.pick(style.ends).to_string();
    for (place, number) in numbers.iter().enumerate() {
        if place > 0 {
            text.push_str(random.pick(style.separators));
        }
        if random.once_in(4) {
            text.push_str(&"0".repeat(random.below(style.most_zeros + 1)));
        }
        let _ = write!(text, "{number}");
    }
    text.push_str(random.pick(style.ends));
    text.into()
}
