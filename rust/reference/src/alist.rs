//! Alist text: its numbers, and the lists that they make.

use crate::cause::Cause;
use crate::fault::Fault;
use crate::Reference;

/// The columns or the rows of a text: their maximum, their degrees, and the lists
/// filled to the maximum, one behind the other.
pub struct Side<'a> {
    pub most: usize,
    pub degrees: &'a [usize],
    lists: &'a [usize],
}

impl<'a> Side<'a> {
    /// The degree of each list, and the list.
    pub fn filled(&self) -> impl Iterator<Item = (usize, &'a [usize])> {
        let (most, lists) = (self.most, self.lists);
        let list = move |place| &lists[place * most..][..most];
        let degrees = self.degrees.iter().enumerate();
        degrees.map(move |(place, &degree)| (degree, list(place)))
    }

    /// Each list without what fills it.
    pub fn indices(&self) -> Vec<&'a [usize]> {
        let first = |(degree, list): (usize, &'a [usize])| &list[..degree.min(list.len())];
        self.filled().map(first).collect()
    }
}

/// A text as its numbers give it.
pub struct Alist<'a> {
    pub columns: Side<'a>,
    pub rows: Side<'a>,
}

impl Reference {
    /// The value of a number's digits.
    fn value(self, digits: &[u8]) -> Result<usize, Cause> {
        if !digits.iter().all(u8::is_ascii_digit) {
            return Err(Cause::Text);
        }
        if self.has(Fault::LeadingZerosRefused) && digits.len() > 1 && digits[0] == b'0' {
            return Err(Cause::Text);
        }
        let narrow = self.has(Fault::NumbersIn16Bits);
        let value = digits.iter().fold(0, |value, digit| {
            let value = 10 * value + usize::from(digit - b'0');
            // All that is too large is equally so.
            if narrow {
                value % 65_536
            } else {
                value.min(1_000_000)
            }
        });
        if value > self.limit(65_535) {
            return Err(Cause::Text);
        }
        Ok(value)
    }

    /// Whether a byte stands between numbers.
    fn separates(self, byte: u8) -> bool {
        match byte {
            b' ' | b'\n' => true,
            b'\t' => self.has(Fault::TabSeparates),
            b'\r' => self.has(Fault::CarriageReturnSeparates),
            0 => self.has(Fault::NulSeparates),
            _ => false,
        }
    }

    /// All numbers of a text; where two separators meet there is none.
    pub(crate) fn numbers(self, text: &[u8]) -> Result<Vec<usize>, Cause> {
        let words: Vec<&[u8]> = text.split(|&byte| self.separates(byte)).collect();
        if self.refuses_separators(text, &words) {
            return Err(Cause::Text);
        }
        let numbers = words.into_iter().filter(|digits| !digits.is_empty());
        numbers.map(|digits| self.value(digits)).collect()
    }

    /// Whether a fault is against these separators.
    fn refuses_separators(self, text: &[u8], words: &[&[u8]]) -> bool {
        let [first, inner @ .., last] = words else {
            return false;
        };
        match self.fault {
            Some(Fault::SeparatorFirstRefused) => first.is_empty(),
            Some(Fault::NoSeparatorLastRefused) => !last.is_empty(),
            Some(Fault::SecondSeparatorRefused) => inner.iter().any(|word| word.is_empty()),
            Some(Fault::OneLineRefused) => !text.contains(&b'\n'),
            _ => false,
        }
    }

    /// Takes the numbers apart: sizes, maxima, degrees, lists, and nothing more.
    pub(crate) fn parts(self, numbers: &[usize]) -> Result<Alist<'_>, Cause> {
        let &[bits, checks, most_of_columns, most_of_rows, ref rest @ ..] = numbers else {
            return Err(Cause::Text);
        };
        let mut due = bits + checks + bits * most_of_columns + checks * most_of_rows;
        if self.has(Fault::CountIn32Bits) {
            due = due as u32 as usize;
        }
        let more = self.has(Fault::NumbersAfterIgnored) && rest.len() > due;
        if rest.len() != due && !more {
            return Err(Cause::Text);
        }
        let (column_degrees, rest) = rest.split_at(bits);
        let (row_degrees, rest) = rest.split_at(checks);
        let (columns, rows) = rest.split_at(bits * most_of_columns);
        Ok(Alist {
            columns: Side {
                most: most_of_columns,
                degrees: column_degrees,
                lists: columns,
            },
            rows: Side {
                most: most_of_rows,
                degrees: row_degrees,
                lists: rows,
            },
        })
    }
}
