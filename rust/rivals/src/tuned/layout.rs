//! How the tuned rival lays out a code.
//!
//! Four checks of one degree make a block, one check a lane. The items of a
//! check are its bits and then its auxiliaries, so an auxiliary never leaves
//! its block. Blocks and bits meet in slots, one for each bit of each check:
//! four lanes a vector, the vectors of a block in the order of its bits. Bits
//! stand in the order of their counts, in groups of four. Lanes without a check
//! have slots that no bit has, and places without a bit share a slot of their
//! own; these hold 0 for ever.

use crate::plain::records::Code;

/// Bits in more checks than this are left to the plain rival.
pub const MOST_COUNT: usize = 32;

/// A check that stands in no lane.
pub const NO_TRIPLE: u32 = u32::MAX;

/// Blocks of checks of one degree.
pub struct CheckClass {
    pub degree: usize,
    /// The triples of each check; all but one make an auxiliary.
    pub triples: usize,
    pub blocks: usize,
    /// Lanes of the last block that hold no check.
    pub free_lanes: usize,
}

/// The triples of a check; one of two bits has one, with a blank.
fn triples_of(degree: usize) -> usize {
    degree.max(3) - 2
}

/// Groups of bits in the same number of checks.
pub struct BitClass {
    pub count: usize,
    pub groups: usize,
}

pub struct Layout {
    pub check_classes: Vec<CheckClass>,
    pub bit_classes: Vec<BitClass>,
    /// The first triple and the first auxiliary of each block's checks.
    pub origins: Vec<[(u32, u32); 4]>,
    /// For each bit, its place among the sorted ones.
    pub places: Vec<u16>,
    /// For each place, as many slots as its bit has checks.
    pub slots: Vec<u16>,
    /// Vectors of rows, of slots and of auxiliaries in all blocks.
    pub row_vectors: usize,
    pub slot_vectors: usize,
    pub auxiliary_vectors: usize,
    /// Groups of four places.
    pub groups: usize,
}

/// The next lane for a check of some degree.
#[derive(Clone, Copy, Default)]
struct Next {
    block: usize,
    lane: usize,
    slot: usize,
}

impl Layout {
    /// The layout of a code whose bits have these counts, none above the most.
    pub fn of(code: &Code, counts: &[u16]) -> Layout {
        let mut layout = Layout {
            check_classes: Vec::new(),
            bit_classes: Vec::new(),
            origins: Vec::new(),
            places: Vec::new(),
            slots: Vec::new(),
            row_vectors: 0,
            slot_vectors: 0,
            auxiliary_vectors: 0,
            groups: 0,
        };
        let next = layout.class_checks(code);
        let free = layout.class_bits(&counts[..code.bits]);
        layout.place_checks(code, next, free);
        layout
    }

    /// Counts blocks; the first lane of every degree.
    fn class_checks(&mut self, code: &Code) -> [Next; 33] {
        let mut numbers = [0; 33];
        for &degree in &code.degrees {
            numbers[usize::from(degree)] += 1;
        }
        let mut next = [Next::default(); 33];
        let mut block = 0;
        for degree in 2..=32 {
            let blocks = usize::div_ceil(numbers[degree], 4);
            next[degree] = Next {
                block,
                lane: 0,
                slot: 4 * self.slot_vectors,
            };
            let triples = triples_of(degree);
            if blocks > 0 {
                self.check_classes.push(CheckClass {
                    degree,
                    triples,
                    blocks,
                    free_lanes: 4 * blocks - numbers[degree],
                });
            }
            block += blocks;
            self.row_vectors += 4 * blocks * triples;
            self.slot_vectors += blocks * degree;
            self.auxiliary_vectors += blocks * (triples - 1);
        }
        self.origins = vec![[(NO_TRIPLE, 0); 4]; block];
        next
    }

    /// Sorts bits by their counts; for each bit, where its slots are to stand.
    fn class_bits(&mut self, counts: &[u16]) -> Vec<u16> {
        let mut numbers = [0; MOST_COUNT + 1];
        for &count in counts {
            numbers[usize::from(count)] += 1;
        }
        let mut next = [(0, 0); MOST_COUNT + 1];
        let mut slots = 0;
        for count in 1..=MOST_COUNT {
            let groups = usize::div_ceil(numbers[count], 4);
            next[count] = (4 * self.groups as u16, slots as u16);
            if groups > 0 {
                self.bit_classes.push(BitClass { count, groups });
            }
            self.groups += groups;
            slots += 4 * groups * count;
        }
        // The vector after all slots is for places without a bit.
        self.slots = vec![(4 * self.slot_vectors) as u16; slots];
        self.places.reserve_exact(counts.len());
        let free = counts.iter().map(|&count| {
            let (place, slot) = &mut next[usize::from(count)];
            self.places.push(*place);
            *place += 1;
            *slot += count;
            *slot - count
        });
        free.collect()
    }

    /// Gives each check its lane, and each of its bits the slot.
    fn place_checks(&mut self, code: &Code, mut next: [Next; 33], mut free: Vec<u16>) {
        let (mut triple, mut auxiliary) = (0, code.bits);
        for check in code.checks() {
            let degree = check.len();
            let Next { block, lane, slot } = &mut next[degree];
            self.origins[*block][*lane] = (triple as u32, auxiliary as u32);
            for (place, &bit) in check.iter().enumerate() {
                let free = &mut free[usize::from(bit)];
                self.slots[usize::from(*free)] = (*slot + 4 * place + *lane) as u16;
                *free += 1;
            }
            *lane += 1;
            if *lane == 4 {
                *lane = 0;
                *block += 1;
                *slot += 4 * degree;
            }
            triple += triples_of(degree);
            auxiliary += triples_of(degree) - 1;
        }
    }
}
