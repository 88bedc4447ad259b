//! The check matrix in echelon form.

use super::row::{Row, MOST_BITS};
use crate::plain::records::Code;
use crate::plain::Refused;
use crate::words::is_binary;
use interface::WordAnswer;

/// A code with the rows of its pivots, in echelon form.
pub struct Reduced {
    pub code: Code,
    pub pivots: Row,
    /// The row of each pivot.
    pub rows: [Row; MOST_BITS],
    rank: usize,
}

impl Reduced {
    pub fn read(code: &[u8]) -> Refused<Reduced> {
        let code = Code::read(code)?;
        if code.bits > MOST_BITS {
            return Err(20);
        }
        let mut reduced = Reduced {
            code,
            pivots: Row::default(),
            rows: [Row::default(); MOST_BITS],
            rank: 0,
        };
        reduced.reduce();
        Ok(reduced)
    }

    /// Adds check after check, until every bit is a pivot.
    fn reduce(&mut self) {
        for check in self.code.checks() {
            let mut row = Row::default();
            check.iter().for_each(|&bit| row.toggle(bit.into()));
            while let Some(bit) = row.first() {
                if !self.pivots.has(bit) {
                    self.pivots.toggle(bit);
                    self.rows[bit] = row;
                    self.rank += 1;
                    break;
                }
                row.add(&self.rows[bit]);
            }
            if self.rank == self.code.bits {
                break;
            }
        }
    }

    pub fn length(&self) -> usize {
        self.code.bits - self.rank
    }

    pub fn judge(&self, frames: usize, messages: &[u8], room: usize) -> Refused<()> {
        if frames.checked_mul(self.length()) != Some(messages.len()) {
            Err(12)
        } else if !is_binary(messages) {
            Err(15)
        } else if room / self.code.bits < frames {
            Err(10)
        } else {
            Ok(())
        }
    }

    /// Fills the word from its last bit back.
    pub fn write(&self, message: &[u8], word: &mut [u8]) {
        let mut known = Row::default();
        let mut entries = message.iter().rev();
        for (bit, entry) in word.iter_mut().enumerate().rev() {
            *entry = match self.pivots.has(bit) {
                true => self.rows[bit].product(&known),
                false => *entries.next().expect("an entry for each other bit"),
            };
            known.add_entry(bit, *entry);
        }
    }

    pub fn read_word(&self, word: &[u8], message: &mut [u8]) -> Result<(), WordAnswer> {
        let refused = |number, place| Err(WordAnswer { number, place });
        if word.len() != self.code.bits {
            return refused(12, 0);
        }
        if !is_binary(word) {
            return refused(15, 0);
        }
        if message.len() < self.length() {
            return refused(10, 0);
        }
        if let Some(check) = self.code.odd_check(word) {
            return refused(17, check);
        }
        let others = (0..word.len()).filter(|&bit| !self.pivots.has(bit));
        for (entry, bit) in message.iter_mut().zip(others) {
            *entry = word[bit];
        }
        Ok(())
    }
}
