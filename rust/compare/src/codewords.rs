//! Random codewords, by elimination over the field of two elements.

use crate::codes::Code;
use crate::random::Random;

/// The checks in reduced form: each row has a pivot bit that no other row has.
pub struct Codewords {
    bits: usize,
    rows: Vec<Vec<u64>>,
    pivots: Vec<usize>,
}

fn has(row: &[u64], bit: usize) -> bool {
    row[bit / 64] >> (bit % 64) & 1 == 1
}

fn add(row: &mut [u64], other: &[u64]) {
    for (word, other) in row.iter_mut().zip(other) {
        *word ^= other;
    }
}

impl Codewords {
    pub fn of(code: &Code) -> Codewords {
        let mut rest: Vec<Vec<u64>> = code
            .checks
            .iter()
            .map(|check| packed(code.bits, check))
            .collect();
        let (mut rows, mut pivots) = (Vec::<Vec<u64>>::new(), Vec::new());
        for bit in 0..code.bits {
            let Some(place) = rest.iter().position(|row| has(row, bit)) else {
                continue;
            };
            let pivot = rest.swap_remove(place);
            for row in rest.iter_mut().chain(&mut rows) {
                if has(row, bit) {
                    add(row, &pivot);
                }
            }
            rows.push(pivot);
            pivots.push(bit);
        }
        Codewords {
            bits: code.bits,
            rows,
            pivots,
        }
    }

    /// How many bits are no pivots.
    pub fn message_length(&self) -> usize {
        self.bits - self.pivots.len()
    }

    /// A codeword with random entries outside the pivots.
    pub fn random(&self, random: &mut Random) -> Vec<u8> {
        let mut word = random.word(self.bits);
        for &pivot in &self.pivots {
            word[pivot] = 0;
        }
        let ones: Vec<usize> = (0..self.bits).filter(|&bit| word[bit] == 1).collect();
        let packed = packed(self.bits, &ones);
        let entries: Vec<u8> = self.rows.iter().map(|row| parity(row, &packed)).collect();
        for (&pivot, entry) in self.pivots.iter().zip(entries) {
            word[pivot] = entry;
        }
        word
    }
}

/// These of so many bits.
fn packed(bits: usize, ones: &[usize]) -> Vec<u64> {
    let mut row = vec![0; bits.div_ceil(64)];
    for &bit in ones {
        row[bit / 64] ^= 1 << (bit % 64);
    }
    row
}

/// The sum modulo 2 of the word's entries in a row.
fn parity(row: &[u64], word: &[u64]) -> u8 {
    let common = row.iter().zip(word).map(|(row, word)| row & word);
    (common.map(u64::count_ones).sum::<u32>() % 2) as u8
}
