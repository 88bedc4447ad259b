//! Export: code records to alist text.

use crate::cause::Cause;
use crate::fault::Fault;
use crate::records::Code;
use crate::Reference;
use std::fmt::Write;

fn degrees(lists: &[Vec<usize>]) -> Vec<usize> {
    lists.iter().map(Vec::len).collect()
}

fn largest(lists: &[Vec<usize>]) -> usize {
    degrees(lists).into_iter().max().unwrap_or(0)
}

impl Reference {
    /// The numbers of a code's text, line by line, with indices from 1.
    fn lines(self, code: &Code) -> Vec<Vec<usize>> {
        let first = usize::from(!self.has(Fault::IndicesFromZero));
        let rows: Vec<Vec<usize>> = code
            .checks
            .iter()
            .map(|check| check.iter().map(|bit| bit + first).collect())
            .collect();
        let mut columns = vec![Vec::new(); code.bits];
        for (check, bits) in code.checks.iter().enumerate() {
            bits.iter()
                .for_each(|&bit| columns[bit].push(check + first));
        }
        if self.has(Fault::ColumnsFalling) {
            columns.iter_mut().for_each(|column| column.reverse());
        }
        let mut maxima = vec![largest(&columns), largest(&rows)];
        if self.has(Fault::MaximaTurned) {
            maxima.reverse();
        }
        let mut lines = vec![
            vec![code.bits, code.checks.len()],
            maxima,
            degrees(&columns),
            degrees(&rows),
        ];
        for mut lists in [columns, rows] {
            self.fill(&mut lists);
            lines.extend(lists);
        }
        lines
    }

    /// Fills lists with zeros to the length of the longest.
    fn fill(self, lists: &mut [Vec<usize>]) {
        let most = largest(lists);
        if !self.has(Fault::ListsNotFilled) {
            lists.iter_mut().for_each(|list| list.resize(most, 0));
        }
    }

    /// The text of a code: a space between numbers, a line feed after each line.
    fn alist_text(self, code: &Code) -> Vec<u8> {
        let zero = if self.has(Fault::LeadingZeroWritten) {
            "0"
        } else {
            ""
        };
        let space = if self.has(Fault::SpaceAtLineEnd) {
            " "
        } else {
            ""
        };
        let mut text = String::new();
        for line in self.lines(code) {
            for (place, number) in line.iter().enumerate() {
                let before = if place == 0 { "" } else { " " };
                let _ = write!(text, "{before}{zero}{number}");
            }
            text.push_str(space);
            text.push('\n');
        }
        if self.has(Fault::LastLineFeedLeftOut) {
            text.pop();
        }
        text.into()
    }

    pub(crate) fn try_export(self, code: &[u8], text: &mut [u8]) -> Result<usize, Cause> {
        let made = self.alist_text(&self.read_code(code)?);
        let short = self.is_short(text.len(), made.len());
        let judged = self.judge(&[(Cause::ListTooShort, short)]);
        self.write_bytes(judged, || made.clone(), text)
    }

    pub(crate) fn try_export_size(self, code: &[u8]) -> Result<usize, Cause> {
        Ok(self.alist_text(&self.read_code(code)?).len())
    }
}
