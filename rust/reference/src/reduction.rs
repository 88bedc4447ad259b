//! The check matrix reduced modulo 2 (document 02, L5), column by column, as Gauss and
//! Jordan do it.

use crate::fault::Fault;
use crate::records::Code;
use crate::Reference;

/// A row for each pivot: it has a 1 at its own pivot and at no other.
#[derive(Clone, Debug, PartialEq, Eq)]
pub struct Reduction {
    pub rows: Vec<Vec<bool>>,
    pub pivots: Vec<usize>,
    /// The columns that are no pivots, in rising order.
    pub others: Vec<usize>,
}

fn row_of(code: &Code, check: &[usize]) -> Vec<bool> {
    let mut row = vec![false; code.bits];
    check.iter().for_each(|&bit| row[bit] = true);
    row
}

fn add(row: &mut [bool], other: &[bool]) {
    for (entry, &added) in row.iter_mut().zip(other) {
        *entry ^= added;
    }
}

impl Reference {
    /// Takes each column for a pivot that some row without one has a 1 in, and clears that
    /// column in all other rows.
    pub fn reduce(self, code: &Code) -> Reduction {
        let left_out = |check: &Vec<usize>| self.has(Fault::TwoBitsNotReduced) && check.len() == 2;
        let checks = code.checks.iter().filter(|check| !left_out(check));
        let rows = checks.map(|check| row_of(code, check));
        let mut rows: Vec<Vec<bool>> = rows.collect();
        let mut pivots = Vec::new();
        let mut columns: Vec<usize> = (0..code.bits).collect();
        if self.has(Fault::LastPivots) {
            columns.reverse();
        }
        for column in columns {
            let rank = pivots.len();
            let Some(place) = (rank..rows.len()).find(|&place| rows[place][column]) else {
                continue;
            };
            rows.swap(rank, place);
            let pivot = rows[rank].clone();
            for (place, row) in rows.iter_mut().enumerate() {
                let left_out = self.has(Fault::RowNotCleared) && (place, rank) == (0, 1);
                if row[column] && place != rank && !left_out {
                    add(row, &pivot);
                }
            }
            pivots.push(column);
        }
        rows.truncate(pivots.len());
        let mut others: Vec<usize> = (0..code.bits).filter(|bit| !pivots.contains(bit)).collect();
        if self.has(Fault::MessageBackwards) {
            others.reverse();
        }
        Reduction {
            rows,
            pivots,
            others,
        }
    }
}
