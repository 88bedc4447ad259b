//! Lists that lie where they are wanted. On some processors a read waits for an earlier store
//! whose address has the same last twelve bits. In a regular code of checks of six bits the
//! sums of the auxiliaries are stored as fast as the triples are read, 24 bytes a check, so
//! what lies between the two lists decides whether they meet.

use crate::scenario::Scenario;
use interface::{Lists, OwnLists};

const PAGE: usize = 4_096;
const SUM: usize = size_of::<i64>();

/// How many bytes the sums of the auxiliaries may be ahead of the triples, modulo a page.
pub const AHEAD: [usize; 9] = [0, 16, 32, 48, 64, 96, 128, 2_048, 4_064];

/// How many places in memory are tried, since the pages themselves matter too.
pub const PLACES: usize = 8;

/// The lists of a code, of which only the sums may be longer than what is lent.
pub struct Placed {
    own: OwnLists,
    bits: usize,
    variables: usize,
    from: usize,
}

impl Placed {
    /// Lists of exact lengths, wherever they come to lie.
    pub fn anywhere(scenario: &Scenario) -> Placed {
        let (bits, variables) = (scenario.code.bits, scenario.code.variables());
        Placed {
            own: OwnLists::exact(bits, variables, scenario.code.triples(), 0),
            bits,
            variables,
            from: 0,
        }
    }

    /// The same with a page of sums to spare.
    pub fn spare(scenario: &Scenario) -> Placed {
        let mut placed = Placed::anywhere(scenario);
        placed.own.sums = vec![0; placed.variables + PAGE / SUM];
        placed
    }

    /// Lends the sums from where the first auxiliary's is so many bytes ahead.
    pub fn put(&mut self, ahead: usize) {
        let triples = self.own.triples.as_ptr() as usize;
        let auxiliary = self.own.sums.as_ptr() as usize + SUM * self.bits;
        let missing = triples.wrapping_add(ahead).wrapping_sub(auxiliary) % PAGE;
        assert_eq!(missing % SUM, 0, "triples lie at a multiple of 8");
        self.from = missing / SUM;
    }

    pub fn lend(&mut self) -> Lists<'_> {
        let mut lists = self.own.lend();
        lists.sums = &mut lists.sums[self.from..][..self.variables];
        lists
    }
}
