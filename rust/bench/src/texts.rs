//! Alist texts, written fast.

use compare::alist::Plan;
use compare::random::Random;
use std::iter::repeat_n;

/// How the lists of a text are written.
#[derive(Clone, Copy)]
pub enum Style {
    /// As an export does.
    Tight,
    /// With zeros before numbers and more separators behind them.
    Loose,
}

struct Writer {
    text: Vec<u8>,
    style: Style,
    random: Random,
}

impl Writer {
    /// A number with a space behind it.
    fn number(&mut self, number: usize) {
        let mut digits = [0; 5];
        let mut first = digits.len();
        let mut rest = number;
        while rest > 0 || first == digits.len() {
            first -= 1;
            digits[first] = b'0' + (rest % 10) as u8;
            rest /= 10;
        }
        self.text.extend_from_slice(&digits[first..]);
        self.text.push(b' ');
    }

    /// A line, of which nothing is written where it has no number.
    fn line(&mut self, numbers: impl Iterator<Item = usize>) {
        for number in numbers {
            self.number(number);
        }
        if let Some(last) = self.text.last_mut() {
            *last = b'\n';
        }
    }

    /// Lists filled with zeros to the longest.
    fn lists(&mut self, lists: &[Vec<usize>]) {
        let most = largest(lists);
        for list in lists {
            let zeros = repeat_n(0, most - list.len());
            let filled = list.iter().copied().chain(zeros);
            match self.style {
                Style::Tight => self.line(filled),
                Style::Loose => filled.for_each(|number| self.loosely(number)),
            }
        }
    }

    fn loosely(&mut self, number: usize) {
        let zeros = self.random.below(3);
        self.text.extend_from_slice(&b"00"[..zeros]);
        self.number(number);
        let spaces = self.random.below(3);
        self.text.extend_from_slice(&b" \n"[..spaces]);
    }
}

fn largest(lists: &[Vec<usize>]) -> usize {
    lists.iter().map(Vec::len).max().unwrap_or(0)
}

/// The text of a plan, with so many spaces more before the rows' lists.
pub fn written(plan: &Plan, style: Style, spaces: usize) -> Vec<u8> {
    let mut writer = Writer {
        text: Vec::new(),
        style,
        random: Random::new(7),
    };
    let (columns, rows) = (&plan.columns, &plan.rows);
    writer.line([columns.len(), rows.len()].into_iter());
    writer.line([largest(columns), largest(rows)].into_iter());
    writer.line(columns.iter().map(Vec::len));
    writer.line(rows.iter().map(Vec::len));
    writer.lists(columns);
    writer.text.extend(repeat_n(b' ', spaces));
    writer.lists(rows);
    writer.text
}
