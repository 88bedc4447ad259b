//! The comparison itself: every case of a family, every answer and list.

use crate::case::Case;
use crate::families::{Effort, Family};
use crate::outcome::{outcome, Outcome};
use crate::tally::Tally;
use reference::SOUND;
use std::convert::Infallible;
use std::fmt;

/// A case on which a subject differs from the reference.
pub struct Failure {
    pub family: &'static str,
    /// The seed of a random case, the place of a listed one.
    pub seed: u64,
    pub case: Case,
    pub difference: String,
}

impl fmt::Display for Failure {
    fn fmt(&self, text: &mut fmt::Formatter) -> fmt::Result {
        writeln!(text, "family {:?}, seed {:#x}", self.family, self.seed)?;
        writeln!(text, "{}", self.difference)?;
        writeln!(text, "replay with this line as standard input of `replay`:")?;
        write!(text, "{}", self.case)
    }
}

impl fmt::Debug for Failure {
    fn fmt(&self, text: &mut fmt::Formatter) -> fmt::Result {
        fmt::Display::fmt(self, text)
    }
}

/// Compares a subject with the reference on every case of these families that is
/// one of its own; counts what was met.
pub fn compare(
    subject: impl Fn(&Case) -> Option<Outcome>,
    families: Vec<Family>,
    effort: Effort,
) -> Result<Tally, Box<Failure>> {
    let mut tally = Tally::default();
    for family in families {
        family.visit(effort, |seed, case| {
            let Some(found) = subject(&case) else {
                return Ok(());
            };
            let expected = outcome(SOUND, &case);
            tally.add(&case, &expected);
            match found.difference(&expected) {
                None => Ok(()),
                Some(difference) => Err(Box::new(Failure {
                    family: family.name,
                    seed,
                    case,
                    difference,
                })),
            }
        })?;
    }
    Ok(tally)
}

/// Counts what is met in the quick cases of these families that are the subject's own.
pub fn met(subject: impl Fn(&Case) -> Option<Outcome>, families: Vec<Family>) -> Tally {
    let mut tally = Tally::default();
    for family in families {
        let Ok(()) = family.visit(Effort::Quick, |_, case| {
            if let Some(outcome) = subject(&case) {
                tally.add(&case, &outcome);
            }
            Ok::<(), Infallible>(())
        });
    }
    tally
}
