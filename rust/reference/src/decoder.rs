//! The decoder as a call: causes in their order, then the run, then the lists.

use crate::cause::Cause;
use crate::fault::Fault;
use crate::iteration::{most_row, row_sums, Iterate, Problem, UNIT};
use crate::records::Code;
use crate::run::{run, End, MOST_ITERATIONS};
use crate::Reference;
use interface::{DecodeAnswer, Lists, Settings};

/// What of the lent lists is kept for a frame.
pub(crate) struct Parts<'a> {
    pub sums: &'a mut [i64],
    pub values: &'a mut [i16],
    pub rows: &'a mut [i32],
    pub word: &'a mut [u8],
}

/// The lengths of lists: triples, counts, sums, values, rows and word.
pub(crate) fn lengths(lists: &Lists) -> [usize; 6] {
    [
        lists.triples.len(),
        lists.counts.len(),
        lists.sums.len(),
        lists.values.len(),
        lists.rows.len(),
        lists.word.len(),
    ]
}

impl Reference {
    /// Whether W, A and K are within their ranges; X may be anything.
    pub(crate) fn in_range(self, settings: Settings) -> bool {
        let mut weight = settings.weight as usize;
        if self.has(Fault::WeightIn16Bits) {
            weight %= 65_536;
        }
        let signed = self.has(Fault::SignedTolerance) && settings.tolerance > i32::MAX as u32;
        self.within(weight, 1, 65_535)
            && self.within(settings.ratio as usize, 0, 1_023)
            && self.within(settings.limit as usize, 1, MOST_ITERATIONS)
            && !signed
    }

    /// Whether lists of these lengths have room for so many frames.
    pub(crate) fn have_room(self, code: &Code, frames: usize, room: [usize; 6]) -> bool {
        let (triples, variables) = (self.triples(code), self.variables(code));
        let of_each = |size: usize| frames.saturating_mul(size);
        let [for_triples, for_counts, for_sums, for_values, for_rows, for_word] = room;
        for_triples >= 3 * triples
            && for_counts >= variables
            && for_sums >= of_each(variables)
            && for_values >= of_each(variables)
            && for_rows >= of_each(4 * triples)
            && (for_word >= of_each(code.bits) || self.has(Fault::ShortWordPassesUnwritten))
    }

    pub(crate) fn try_decode(
        self,
        code: &[u8],
        settings: Settings,
        costs: &[i16],
        lists: Lists,
    ) -> Result<DecodeAnswer, Cause> {
        let code = self.read_code(code)?;
        let has_room = self.have_room(&code, 1, lengths(&lists));
        let split = self.split_code(&code);
        if self.has(Fault::SplitBeforeJudged) && has_room {
            self.write_split(&split, lists.triples, lists.counts);
        }
        self.judge(&[
            (Cause::Setting, !self.in_range(settings)),
            (Cause::Lengths, costs.len() != code.bits),
            (Cause::Cost, costs.contains(&i16::MIN)),
            (Cause::ListTooShort, !has_room),
        ])?;
        self.write_split(&split, lists.triples, lists.counts);
        let problem = Problem::new(self, split, settings, costs);
        let end = run(&problem, &mut |_, _| ());
        let parts = Parts {
            sums: lists.sums,
            values: lists.values,
            rows: lists.rows,
            word: lists.word,
        };
        self.write_end(&code, &problem, &end, parts)
    }

    /// Writes what a run left to its frame's parts, and tells its outcome.
    pub(crate) fn write_end(
        self,
        code: &Code,
        problem: &Problem,
        end: &End,
        parts: Parts,
    ) -> Result<DecodeAnswer, Cause> {
        write_iterate(problem, &end.last, parts.sums, parts.values, parts.rows);
        let reading = self.reading(code, &end.last.values);
        if reading.number == 0 || self.has(Fault::WordWrittenAlways) {
            let word = parts.word.get_mut(..code.bits).ok_or(Cause::ListTooShort)?;
            word.copy_from_slice(&reading.bits);
        }
        Ok(DecodeAnswer {
            number: reading.number,
            place: reading.place,
            k: end.k,
            settled: u32::from(end.settled),
        })
    }
}

fn write_iterate(
    problem: &Problem,
    last: &Iterate,
    sums: &mut [i64],
    values: &mut [i16],
    rows: &mut [i32],
) {
    let mut told = last.sums.clone();
    if problem.reference.has(Fault::SumsOfNextIteration) {
        told = row_sums(problem, &last.rows);
    }
    sums[..told.len()].copy_from_slice(&told);
    for (entry, &value) in values.iter_mut().zip(&last.values) {
        *entry = i16::try_from(value).expect("c lies in -U..U");
    }
    let range = -4 * UNIT..=most_row(problem.settings.limit as usize);
    for (entry, &s) in rows.iter_mut().zip(last.rows.iter().flatten()) {
        assert!(range.contains(&s), "s lies in -65,536 .. 32,768 * K");
        *entry = i32::try_from(s).expect("this range fits");
    }
}
