//! Words and points: the codeword test, the extension, the reflector and the sum of
//! two words.

use crate::cause::Cause;
use crate::fault::Fault;
use crate::records::Code;
use crate::splitting::Split;
use crate::Reference;
use interface::WordAnswer;

/// Whether every entry is 0 or 1.
pub(crate) fn is_binary(word: &[u8]) -> bool {
    word.iter().all(|&entry| entry <= 1)
}

impl Reference {
    /// The first check over which the word's sum is odd.
    pub fn first_odd_check(self, code: &Code, word: &[u8]) -> Option<usize> {
        let is_odd = |check: &Vec<usize>| {
            if self.has(Fault::TwoBitsNotTested) && check.len() == 2 {
                return false;
            }
            let entries = check.iter().filter_map(|&bit| word.get(bit));
            entries.map(|&entry| usize::from(entry)).sum::<usize>() % 2 == 1
        };
        if self.has(Fault::LastOddCheck) {
            return code.checks.iter().rposition(is_odd);
        }
        code.checks.iter().position(is_odd)
    }

    /// The word, then each auxiliary's sum modulo 2 of the two items it was made of.
    pub fn point_of(self, split: &Split, word: &[u8]) -> Vec<u8> {
        let mut point = word.to_vec();
        for &[mut first, mut second] in &split.makers {
            if self.has(Fault::AuxiliaryOfLastTwo) {
                [first, second] = [point.len() - 2, point.len() - 1];
            }
            point.push(self.auxiliary_of(point[first], point[second]));
        }
        point
    }

    fn auxiliary_of(self, first: u8, second: u8) -> u8 {
        match self.fault {
            Some(Fault::AuxiliaryOfFirst) => first,
            Some(Fault::AuxiliaryIsOr) => first | second,
            _ => (first + second) % 2,
        }
    }

    /// Judges a word for a code, and whether a list is too short; with a fault of the encoder
    /// also, again, whether the code is too long.
    pub(crate) fn judge_word(
        self,
        code: &Code,
        word: &[u8],
        short: bool,
        too_long: bool,
    ) -> Result<(), WordAnswer> {
        let odd = self.first_odd_check(code, word);
        let judged = self.judge(&[
            (Cause::TooLong, too_long),
            (Cause::Lengths, word.len() != code.bits),
            (Cause::WordEntry, !is_binary(word)),
            (Cause::ListTooShort, short),
            (Cause::NotCodeword, odd.is_some()),
        ]);
        let first = usize::from(self.has(Fault::OddCheckFromOne));
        let place_of = |cause| match odd {
            Some(check) if cause == Cause::NotCodeword => check + first,
            _ => 0,
        };
        judged.map_err(|cause| WordAnswer {
            number: cause as u32,
            place: place_of(cause),
        })
    }

    /// The codeword test and, with the room for its point, what the extension
    /// judges.
    pub(crate) fn try_test(
        self,
        code: &[u8],
        word: &[u8],
        room: Option<usize>,
    ) -> Result<Code, WordAnswer> {
        let code = self.read_code(code)?;
        let short = room.is_some_and(|room| room < self.variables(&code));
        self.judge_word(&code, word, short, false)?;
        Ok(code)
    }

    pub(crate) fn try_extend(
        self,
        code: &[u8],
        word: &[u8],
        point: &mut [u8],
    ) -> Result<(), WordAnswer> {
        let code = self.try_test(code, word, Some(point.len()))?;
        let made = self.point_of(&self.split_code(&code), word);
        self.clear_rest(point);
        point[..made.len()].copy_from_slice(&made);
        Ok(())
    }

    pub(crate) fn try_reflect(
        self,
        costs: &[i16],
        word: &[u8],
        result: &mut [i16],
    ) -> Result<(), Cause> {
        let refused = self.has(Fault::NoCostsRefused) && costs.is_empty();
        self.judge(&[
            (Cause::Lengths, costs.len() != word.len() || refused),
            (Cause::Cost, costs.contains(&i16::MIN)),
            (Cause::WordEntry, !is_binary(word)),
            (Cause::ListTooShort, result.len() < costs.len()),
        ])?;
        self.clear_rest(result);
        let negated = u8::from(!self.has(Fault::NegatedAtZeros));
        let next = usize::from(self.has(Fault::NegatedAtNext));
        for (place, &cost) in costs.iter().enumerate() {
            result[place] = match word.get(place + next) == Some(&negated) {
                true if self.has(Fault::MadeNegative) => -cost.abs(),
                true => -cost,
                false => cost,
            };
        }
        Ok(())
    }

    pub(crate) fn try_add_words(
        self,
        word: &[u8],
        other: &[u8],
        sum: &mut [u8],
    ) -> Result<(), Cause> {
        let refused = self.has(Fault::NoEntriesRefused) && word.is_empty();
        let judged = !self.has(Fault::OtherWordNotJudged);
        self.judge(&[
            (Cause::Lengths, word.len() != other.len() || refused),
            (
                Cause::WordEntry,
                !is_binary(word) || judged && !is_binary(other),
            ),
            (Cause::ListTooShort, sum.len() < word.len()),
        ])?;
        self.clear_rest(sum);
        for (entry, (&one, &two)) in sum.iter_mut().zip(word.iter().zip(other)) {
            *entry = match self.fault {
                Some(Fault::SumIsOr) => one | two,
                Some(Fault::SumIsFirst) => one,
                Some(Fault::SumWhereEqual) => u8::from(one == two),
                Some(Fault::SumNotReduced) => one + two,
                _ => (one + two) % 2,
            };
        }
        Ok(())
    }
}
