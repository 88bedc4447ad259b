//! The words of the messages with a single 1: a message's word is the sum of some of them.

use super::reduced::Reduced;
use super::row::Row;

pub struct Generator {
    words: Vec<Row>,
}

impl Generator {
    /// Clears every pivot in the rows of the others, from the last row back; what a row then
    /// has are its pivot and message bits.
    pub fn of(mut reduced: Reduced) -> Generator {
        let bits = 0..reduced.code.bits;
        let (pivots, others): (Vec<usize>, Vec<usize>) =
            bits.partition(|&bit| reduced.pivots.has(bit));
        let mut words = vec![Row::default(); others.len()];
        for (word, &other) in words.iter_mut().zip(&others) {
            word.toggle(other);
        }
        for (place, &pivot) in pivots.iter().enumerate().rev() {
            let mut row = reduced.rows[pivot];
            for &later in &pivots[place + 1..] {
                row.add_times(&reduced.rows[later], u8::from(row.has(later)));
            }
            reduced.rows[pivot] = row;
            for (word, &other) in words.iter_mut().zip(&others) {
                word.add_entry(pivot, u8::from(row.has(other)));
            }
        }
        Generator { words }
    }

    pub fn write(&self, message: &[u8], word: &mut [u8]) {
        let mut sum = Row::default();
        for (row, &entry) in self.words.iter().zip(message) {
            sum.add_times(row, entry);
        }
        sum.spread(word);
    }
}
