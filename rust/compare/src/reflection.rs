//! Reflection: costs negated where a codeword has 1 reflect the whole run.

use crate::codes::{records, Code};
use crate::codewords::Codewords;
use crate::draft::Draft;
use crate::random::Random;
use crate::two_bits::has_two_bits;
use interface::{DecodeAnswer, Decoder, Library, OwnLists, Settings};
use reference::iteration::SIGNS;
use std::collections::BTreeMap;

/// The number of an outcome, and whether the code has checks of two bits.
pub type Kind = (u32, bool);

/// How often each was reflected by a codeword that is not all 0.
pub type Kinds = BTreeMap<Kind, u64>;

/// Whether 0, 16 and 17 were met so often, without and with checks of two bits, and nothing else.
pub fn all_kinds_met(kinds: &Kinds, least: u64) -> bool {
    let due = [0, 16, 17].into_iter();
    let due = due.flat_map(|number| [(number, false), (number, true)]);
    kinds.keys().copied().eq(due) && kinds.values().all(|&count| count >= least)
}

/// A code, a run's settings and costs, and a codeword to reflect by.
#[derive(Clone, Debug)]
pub struct Reflection {
    pub code: Code,
    pub settings: Settings,
    pub costs: Vec<i16>,
    pub codeword: Vec<u8>,
}

/// The answer of a run and its lists, of exactly the lengths needed.
pub struct Run {
    pub answer: DecodeAnswer,
    pub lists: OwnLists,
}

impl Reflection {
    pub fn random(random: &mut Random, code: Code) -> Reflection {
        let codeword = Codewords::of(&code).random(random);
        let draft = Draft::of(random, code);
        Reflection {
            code: draft.code,
            settings: draft.settings,
            costs: draft.costs,
            codeword,
        }
    }

    fn run(&self, decoder: &dyn Decoder, costs: &[i16]) -> Run {
        let (bits, code) = (self.code.bits, records(&self.code));
        let mut lists = OwnLists::exact(bits, self.code.variables(), self.code.triples(), 7);
        let answer = decoder.decode(&code, self.settings, costs, lists.lend());
        Run { answer, lists }
    }

    /// Runs both ways, with a library's reflector and extension; the outcome's
    /// number, or what is not reflected.
    pub fn check(&self, decoder: &dyn Decoder, library: &dyn Library) -> Result<u32, String> {
        let mut costs = vec![0; self.costs.len()];
        if library.reflect(&self.costs, &self.codeword, &mut costs) != 0 {
            return Err("the reflector refuses".into());
        }
        self.check_costs(decoder, library, &costs)
    }

    /// Counts an outcome, unless the codeword is all 0.
    pub fn count(&self, number: u32, kinds: &mut Kinds) {
        if self.codeword.contains(&1) {
            *kinds.entry((number, has_two_bits(&self.code))).or_default() += 1;
        }
    }

    /// The same with reflected costs that are given.
    pub fn check_costs(
        &self,
        decoder: &dyn Decoder,
        library: &dyn Library,
        costs: &[i16],
    ) -> Result<u32, String> {
        let mut point = vec![7; self.code.variables()];
        let extended = library.extend(&records(&self.code), &self.codeword, &mut point);
        if extended.number != 0 {
            return Err("the extension refuses".into());
        }
        let first = self.run(decoder, &self.costs);
        let second = self.run(decoder, costs);
        compare_runs(&first, &second, &point)?;
        Ok(first.answer.number)
    }
}

/// Fails unless the second run is the first one, reflected by a point.
pub fn compare_runs(first: &Run, second: &Run, point: &[u8]) -> Result<(), String> {
    if first.answer != second.answer {
        return Err(format!(
            "answers {:?} and {:?}",
            first.answer, second.answer
        ));
    }
    let (number, first, second) = (first.answer.number, &first.lists, &second.lists);
    if first.triples != second.triples || first.counts != second.counts {
        return Err("triples or counts changed".into());
    }
    for (variable, &entry) in point.iter().enumerate() {
        let sign = 1 - 2 * i16::from(entry);
        if second.values[variable] != sign * first.values[variable]
            || second.sums[variable] != i64::from(sign) * first.sums[variable]
        {
            return Err(format!("c or S of variable {variable}"));
        }
    }
    compare_rows(first, second, point)?;
    for (bit, &entry) in first.word.iter().enumerate() {
        let change = if number == 0 { point[bit] } else { 0 };
        if second.word[bit] != entry ^ change {
            return Err(format!("bit {bit} of the word"));
        }
    }
    Ok(())
}

/// The sign that a point gives an item of a triple; a blank keeps its own.
fn sign_of(point: &[u8], item: u16) -> Result<i64, String> {
    match (item, point.get(usize::from(item))) {
        (0xFFFF, _) => Ok(1),
        (_, Some(&entry)) => Ok(1 - 2 * i64::from(entry)),
        _ => Err(format!("no variable {item}")),
    }
}

/// Each row's s goes to the row whose signs differ exactly where the point has
/// a 1.
fn compare_rows(first: &OwnLists, second: &OwnLists, point: &[u8]) -> Result<(), String> {
    for (place, triple) in first.triples.chunks_exact(3).enumerate() {
        for (row, signs) in SIGNS.iter().enumerate() {
            let mut turned = *signs;
            for (sign, &item) in turned.iter_mut().zip(triple) {
                *sign *= sign_of(point, item)?;
            }
            let Some(other) = SIGNS.iter().position(|signs| *signs == turned) else {
                return Err(format!("the point at triple {place}"));
            };
            if second.rows[4 * place + other] != first.rows[4 * place + row] {
                return Err(format!("row {row} of triple {place}"));
            }
        }
    }
    Ok(())
}
