//! Families of cases: listed ones, and random ones with a seed each.

mod channels;
mod decoding;
mod encoder;
mod exports;
mod group_edges;
mod groups;
mod imports;
mod limit;
mod long_runs;
mod programs;
mod records;
mod small_texts;
mod two_bits;
mod words;

use crate::case::Case;
use crate::random::Random;
use crate::seeds;

pub enum Cases {
    Listed(fn() -> Vec<Case>),
    Random {
        count: usize,
        make: fn(&mut Random) -> Case,
    },
}

pub struct Family {
    pub name: &'static str,
    pub cases: Cases,
}

/// How many random cases a family has: its count, or many times that.
#[derive(Clone, Copy, Debug, PartialEq, Eq)]
pub enum Effort {
    Quick,
    Full,
}

const SEED: u64 = 0x5749_4441_4742_4531;

/// The seed from which every family's seeds come.
pub fn seed() -> u64 {
    seeds::other().unwrap_or(SEED)
}

impl Family {
    fn listed(name: &'static str, cases: fn() -> Vec<Case>) -> Family {
        Family {
            name,
            cases: Cases::Listed(cases),
        }
    }

    fn random(name: &'static str, count: usize, make: fn(&mut Random) -> Case) -> Family {
        Family {
            name,
            cases: Cases::Random { count, make },
        }
    }

    /// The first seed of the family: the common one and the name, mixed.
    fn first_seed(&self) -> u64 {
        let mixed = self.name.bytes().fold(seed(), |seed, byte| {
            Random::new(seed ^ u64::from(byte)).any()
        });
        mixed >> 16
    }

    /// Hands each case with its seed to `visit` until that fails.
    pub fn visit<E>(
        &self,
        effort: Effort,
        mut visit: impl FnMut(u64, Case) -> Result<(), E>,
    ) -> Result<(), E> {
        match self.cases {
            Cases::Listed(cases) => (0..)
                .zip(cases())
                .try_for_each(|(place, case)| visit(place, case)),
            Cases::Random { count, make } => {
                let first = self.first_seed();
                let times = match effort {
                    Effort::Quick => 1,
                    Effort::Full => 8,
                };
                (first..first + times * count as u64)
                    .try_for_each(|seed| visit(seed, make(&mut Random::new(seed))))
            }
        }
    }
}

/// The families of every entry.
pub fn all() -> Vec<Family> {
    let mut families = calls();
    families.extend(groups_alone());
    families.extend(texts());
    families.extend(encoder_alone());
    families.extend(program());
    families
}

/// The families of `Library`'s calls.
pub fn calls() -> Vec<Family> {
    let mut families = of_records();
    families.extend(words::families());
    families.extend(channels::families());
    families.extend(decoding::families());
    families.extend(limit::families());
    families.extend(long_runs::families());
    families.extend(two_bits::calls());
    families
}

/// The families with groups of frames.
pub fn groupings() -> Vec<Family> {
    let mut families = of_records();
    families.extend(groups_alone());
    families
}

/// The families with calls of import and export.
pub fn conversions() -> Vec<Family> {
    let mut families = of_records();
    families.extend(texts());
    families
}

/// The families with calls of the encoder.
pub fn encodings() -> Vec<Family> {
    let mut families = of_records();
    families.extend(encoder_alone());
    families
}

/// The families with calls of every entry that takes records.
fn of_records() -> Vec<Family> {
    let mut families = records::families();
    families.extend(two_bits::records());
    families
}

/// The families of groups alone.
fn groups_alone() -> Vec<Family> {
    let mut families = groups::families();
    families.extend(group_edges::families());
    families
}

/// The families of the encoder alone.
fn encoder_alone() -> Vec<Family> {
    let mut families = encoder::families();
    families.extend(two_bits::encoder());
    families
}

/// The families of import and export alone.
fn texts() -> Vec<Family> {
    let mut families = small_texts::families();
    families.extend(imports::families());
    families.extend(exports::families());
    families.extend(two_bits::texts());
    families
}

/// The families of the frame program.
pub fn program() -> Vec<Family> {
    let mut families = programs::families();
    families.extend(two_bits::program());
    families
}
