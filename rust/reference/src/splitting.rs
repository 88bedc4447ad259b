//! Splitting checks into triples by a literal queue.

use crate::cause::Cause;
use crate::fault::Fault;
use crate::records::Code;
use crate::Reference;
use std::collections::VecDeque;

/// Stands in third place of the triple of a check of two bits; it is no variable.
pub const BLANK: usize = 0xFFFF;

/// The triples of a code, and for each auxiliary the first two items of the
/// triple recorded when it was made.
#[derive(Clone, Debug, PartialEq, Eq)]
pub struct Split {
    pub bits: usize,
    pub triples: Vec<[usize; 3]>,
    pub makers: Vec<[usize; 2]>,
}

impl Split {
    /// Bits and auxiliaries made so far.
    pub fn variables(&self) -> usize {
        self.bits + self.makers.len()
    }
}

impl Reference {
    pub fn split_code(self, code: &Code) -> Split {
        let mut split = Split {
            bits: code.bits,
            triples: Vec::new(),
            makers: Vec::new(),
        };
        for check in &code.checks {
            self.split_check(check, &mut split);
        }
        split
    }

    fn split_check(self, check: &[usize], split: &mut Split) {
        let mut queue: VecDeque<usize> = check.iter().copied().collect();
        while queue.len() < 3 {
            queue.push_back(self.third_of_two(check, split));
        }
        while queue.len() > 3 {
            let first = queue.pop_front().unwrap();
            let second = queue.pop_front().unwrap();
            let auxiliary = split.variables();
            split.makers.push([first, second]);
            split.triples.push([first, second, auxiliary]);
            queue.push_back(auxiliary);
        }
        if self.has(Fault::LastTripleTurned) {
            queue.make_contiguous().reverse();
        }
        split.triples.push([queue[0], queue[1], queue[2]]);
    }

    /// What stands beside the two bits of a check.
    fn third_of_two(self, check: &[usize], split: &mut Split) -> usize {
        if let (true, &[first, second]) = (self.has(Fault::AuxiliaryOfTwoBits), check) {
            split.makers.push([first, second]);
            return split.variables() - 1;
        }
        BLANK
    }

    /// The number of triples that each variable lies in.
    pub fn counts_of(self, split: &Split) -> Vec<usize> {
        let mut counts = vec![0; split.variables()];
        for &item in split.triples.iter().flatten() {
            match item {
                BLANK => counts[0] += usize::from(self.has(Fault::BlankCounted)),
                variable => counts[variable] += 1,
            }
        }
        counts
    }

    /// Writes triples and counts; entries beyond those used stay.
    pub(crate) fn write_split(self, split: &Split, triples: &mut [u16], counts: &mut [u16]) {
        self.clear_rest(triples);
        self.clear_rest(counts);
        for (entry, &item) in triples.iter_mut().zip(split.triples.iter().flatten()) {
            *entry = match item {
                BLANK if self.has(Fault::BlankIsNextIndex) => split.variables() as u16,
                _ => item as u16,
            };
        }
        let times = if self.has(Fault::CountsOfRows) { 4 } else { 1 };
        for (entry, count) in counts.iter_mut().zip(self.counts_of(split)) {
            *entry = (times * count) as u16;
        }
    }

    pub(crate) fn try_split(
        self,
        code: &[u8],
        triples: &mut [u16],
        counts: &mut [u16],
    ) -> Result<(), Cause> {
        let code = self.read_code(code)?;
        let short = triples.len() < 3 * self.triples(&code) || counts.len() < self.variables(&code);
        self.judge(&[(Cause::ListTooShort, short)])?;
        self.write_split(&self.split_code(&code), triples, counts);
        Ok(())
    }
}
