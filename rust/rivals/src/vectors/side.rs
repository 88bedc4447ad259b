//! The columns or the rows of a code: their lists one behind the other.

use super::numbers::{Numbers, TEXT};
use crate::plain::Refused;

/// Indices count from 1; what fills the lists is left out.
pub struct Side {
    pub degrees: Vec<u16>,
    pub indices: Vec<u16>,
}

impl Side {
    /// Takes the degrees; the maximum must be the largest of them.
    pub fn take_degrees(numbers: &mut Numbers, count: u16, most: u16) -> Refused<Side> {
        let side = Side {
            degrees: numbers.take_all(count)?,
            indices: Vec::new(),
        };
        match side.most() == most {
            true => Ok(side),
            false => Err(TEXT),
        }
    }

    /// Takes the lists: each is first its degree's count of indices, then zeros.
    pub fn take_lists(&mut self, numbers: &mut Numbers) -> Refused<()> {
        let most = self.most();
        for &degree in &self.degrees {
            for place in 0..most {
                let number = numbers.take()?;
                if (number == 0) != (place >= degree) {
                    return Err(TEXT);
                }
                if number != 0 {
                    self.indices.push(number);
                }
            }
        }
        Ok(())
    }

    /// The largest degree, 0 where there is none.
    pub fn most(&self) -> u16 {
        self.degrees.iter().copied().max().unwrap_or(0)
    }

    pub fn lists(&self) -> impl Iterator<Item = &[u16]> {
        let mut rest = self.indices.as_slice();
        self.degrees.iter().map(move |&degree| {
            let (list, after) = rest.split_at(usize::from(degree));
            rest = after;
            list
        })
    }

    /// Rows of columns, or columns of rows: so many lists, each rising. There are
    /// none where an index is above the count, or named too often for a degree.
    pub fn turned(&self, count: usize) -> Option<Side> {
        let mut degrees: Vec<u16> = vec![0; count];
        for &index in &self.indices {
            let degree = degrees.get_mut(usize::from(index) - 1)?;
            *degree = degree.checked_add(1)?;
        }
        let mut next = starts(&degrees);
        let mut indices = vec![0; self.indices.len()];
        for (place, list) in (1..=u16::MAX).zip(self.lists()) {
            for &index in list {
                let next = &mut next[usize::from(index) - 1];
                indices[*next] = place;
                *next += 1;
            }
        }
        Some(Side { degrees, indices })
    }
}

/// Where each list starts.
fn starts(degrees: &[u16]) -> Vec<usize> {
    let mut end = 0;
    let start = |&degree: &u16| {
        let start = end;
        end += usize::from(degree);
        start
    };
    degrees.iter().map(start).collect()
}
