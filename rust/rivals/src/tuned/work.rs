//! The lists of a tuned run. Every number in them is whole.

use super::bits::renew_bits;
use super::checks::{renew_checks, Blocks};
use super::lanes::Totals;
use super::layout::{CheckClass, Layout, NO_TRIPLE};
use super::lists::{add_shares, read_rows, write_auxiliaries, write_rows};

use crate::plain::run::{State, Task};
use std::arch::x86_64::{__m128, _mm_setr_ps, _mm_setzero_ps};

pub struct Work<'a> {
    layout: &'a Layout,
    /// s: for each block and triple, four rows of four checks.
    rows: Vec<__m128>,
    /// What each check adds to the S of its bits, or c of these bits.
    slots: Vec<__m128>,
    /// S of the auxiliaries, for this iteration and for the next.
    sums: Vec<__m128>,
    next_sums: Vec<__m128>,
    /// c and S of the sorted bits.
    bit_values: Vec<__m128>,
    bit_sums: Vec<__m128>,
    /// For each sorted bit, what its cost adds to its quotient.
    offsets: Vec<f64>,
    /// For each count, the factor from S to the quotient.
    factors: [f64; 33],
}

/// 1 / divisor, larger by so little that halves round away from zero and
/// nothing else changes: by a part of 2^-16 / divisor. A quotient that is no
/// half lies at least 1 / (2 * divisor) from one, and all other errors are
/// below 2^-18 / divisor, for divisors up to 2^15, quotients up to 2^14, and S up to
/// 2^24, whatever part of the dividend the cost takes back.
pub fn reciprocal(divisor: f64) -> f64 {
    (1.0 + 1.0 / (65536.0 * divisor)) / divisor
}

/// The entries of vectors.
fn flat(vectors: &[__m128]) -> &[f32] {
    // SAFETY: a vector is four f32, and its alignment is stricter.
    unsafe { std::slice::from_raw_parts(vectors.as_ptr().cast(), 4 * vectors.len()) }
}

fn flat_mut(vectors: &mut [__m128]) -> &mut [f32] {
    // SAFETY: a vector is four f32, and its alignment is stricter.
    unsafe { std::slice::from_raw_parts_mut(vectors.as_mut_ptr().cast(), 4 * vectors.len()) }
}

impl<'a> Work<'a> {
    pub fn new(layout: &'a Layout, task: &Task) -> Work<'a> {
        // SAFETY: every x86-64 processor has SSE2.
        let zero = unsafe { _mm_setzero_ps() };
        let ratio = f64::from(task.settings.ratio);
        let mut factors = [0.0; 33];
        for (count, factor) in factors.iter_mut().enumerate().skip(1) {
            *factor = -256.0 * reciprocal(1024.0 * count as f64 - ratio);
        }
        let mut work = Work {
            layout,
            rows: vec![zero; layout.row_vectors],
            slots: vec![zero; layout.slot_vectors + 1],
            sums: vec![zero; layout.auxiliary_vectors],
            next_sums: vec![zero; layout.auxiliary_vectors],
            bit_values: vec![zero; layout.groups],
            bit_sums: vec![zero; layout.groups],
            offsets: vec![0.0; 4 * layout.groups],
            factors,
        };
        work.set_offsets(task);
        work.fill_free_lanes();
        work
    }

    fn set_offsets(&mut self, task: &Task) {
        let weight = f64::from(task.settings.weight) / 256.0;
        let bits = task.costs.iter().zip(task.counts);
        for ((&cost, &count), &place) in bits.zip(&self.layout.places) {
            let factor = weight * self.factors[usize::from(count)];
            self.offsets[usize::from(place)] = f64::from(cost) * factor;
        }
    }

    /// Lanes without a check hold one over zeros, whose s stays as it is.
    fn fill_free_lanes(&mut self) {
        let mut end = 0;
        for class in &self.layout.check_classes {
            let vectors = 4 * class.triples;
            end += class.blocks * vectors;
            let rows = match class.degree {
                2 => [0.0, 0.0, -32768.0, -32768.0],
                _ => [-16384.0; 4],
            };
            let rows = rows.map(|s| {
                let mut lanes = [0.0; 4];
                lanes[4 - class.free_lanes..].fill(s);
                let [a, b, c, d] = lanes;
                // SAFETY: every x86-64 processor has SSE2.
                unsafe { _mm_setr_ps(a, b, c, d) }
            });
            let last = self.rows[end - vectors..end].chunks_exact_mut(4);
            last.for_each(|triple| triple.copy_from_slice(&rows));
        }
    }

    /// Takes over rows as the caller has them, and what they add to every S.
    pub fn resume(&mut self, rows: &[i32]) {
        let mut place = Place::default();
        let mut origins = self.layout.origins.iter();
        for class in &self.layout.check_classes {
            for origins in origins.by_ref().take(class.blocks) {
                let start = place;
                place.advance(class, 1);
                let vectors = &mut self.rows[start.row..place.row];
                read_rows(vectors, origins, rows);
                let slots = &mut self.slots[start.slot..place.slot];
                let sums = &mut self.sums[start.auxiliary..place.auxiliary];
                add_shares(vectors, slots, sums);
            }
        }
    }

    /// The largest s, or 65,536 if none is larger.
    pub fn largest(&self) -> usize {
        let rows = flat(&self.rows).iter();
        rows.fold(65536.0f32, |largest, &s| largest.max(s)) as usize
    }

    /// c of every bit.
    pub fn renew_bits(&mut self) {
        let (mut group, mut slot) = (0, 0);
        for class in &self.layout.bit_classes {
            let slots = 4 * class.count * class.groups;
            let groups = group..group + class.groups;
            renew_bits(
                class.count,
                self.factors[class.count],
                &self.layout.slots[slot..slot + slots],
                flat_mut(&mut self.slots),
                &self.offsets[4 * groups.start..4 * groups.end],
                &mut self.bit_sums[groups.clone()],
                &mut self.bit_values[groups],
            );
            slot += slots;
            group += class.groups;
        }
    }

    /// c of every auxiliary and s of every row; whether the run has settled.
    pub fn renew_checks(&mut self, tolerance: u32) -> bool {
        let tolerance = f64::from(tolerance);
        let mut totals = Totals::new();
        let mut place = Place::default();
        for class in &self.layout.check_classes {
            let start = place;
            place.advance(class, class.blocks);
            let auxiliaries = start.auxiliary..place.auxiliary;
            let blocks = Blocks {
                rows: &mut self.rows[start.row..place.row],
                slots: &mut self.slots[start.slot..place.slot],
                sums: &self.sums[auxiliaries.clone()],
                next_sums: &mut self.next_sums[auxiliaries],
            };
            let factor = self.factors[2];
            renew_checks(class.degree, blocks, factor, tolerance, &mut totals);
        }
        std::mem::swap(&mut self.sums, &mut self.next_sums);
        totals.within(tolerance)
    }

    /// Writes the lists of the last iteration as the caller wants them.
    pub fn write(&self, state: &mut State) {
        let (values, sums) = (flat(&self.bit_values), flat(&self.bit_sums));
        for (bit, &place) in self.layout.places.iter().enumerate() {
            state.values[bit] = values[usize::from(place)] as i16;
            state.sums[bit] = sums[usize::from(place)] as i64;
        }
        let factor = self.factors[2];
        let mut place = Place::default();
        let mut origins = self.layout.origins.iter();
        for class in &self.layout.check_classes {
            let (rows, auxiliaries) = (4 * class.triples, class.triples - 1);
            for origins in origins.by_ref().take(class.blocks) {
                let present = |&(triple, _): &(u32, u32)| triple != NO_TRIPLE;
                let lanes = origins.iter().take_while(|origin| present(origin)).count();
                let triples = origins.map(|(triple, _)| triple as usize);
                let firsts = origins.map(|(_, auxiliary)| auxiliary as usize);
                let from = &self.rows[place.row..place.row + rows];
                write_rows(from, &triples[..lanes], state.rows);
                // The swap has put the last iteration's sums second.
                let from = &self.next_sums[place.auxiliary..place.auxiliary + auxiliaries];
                write_auxiliaries(from, factor, &firsts[..lanes], state.sums, state.values);
                place.advance(class, 1);
            }
        }
    }
}

/// Where a block's vectors start.
#[derive(Clone, Copy, Default)]
struct Place {
    row: usize,
    slot: usize,
    auxiliary: usize,
}

impl Place {
    fn advance(&mut self, class: &CheckClass, blocks: usize) {
        self.row += blocks * 4 * class.triples;
        self.slot += blocks * class.degree;
        self.auxiliary += blocks * (class.triples - 1);
    }
}

#[cfg(test)]
mod tests {
    use super::reciprocal;

    /// Rounded to nearest, halves away from zero.
    fn nearest(dividend: i64, divisor: i64) -> i64 {
        (2 * dividend.abs() + divisor) / (2 * divisor) * dividend.signum()
    }

    /// S and the weighted cost of a dividend near a half, with the two far
    /// apart in sign so that they cancel.
    fn near_half(divisor: i64, whole: i64, part: i64, cost: i64) -> (i64, i64) {
        let dividend = (2 * whole + 1) * divisor / 2 + part;
        let sum = -(dividend + cost) / 256;
        (sum, -dividend - 256 * sum)
    }

    #[test]
    fn reciprocals_round_as_the_quotient() {
        let mut halves = 0;
        for count in 1..=32 {
            for ratio in [0, 1, 2, 149, 150, 256, 511, 512] {
                let divisor = 1024 * count - ratio;
                let factor = reciprocal(divisor as f64);
                for whole in [0, 1, 2, 777, 8_191, 16_382, 16_383] {
                    for part in [-2, -1, 0, 1, 2] {
                        for cost in [0, 1, 40_000, 2_000_000_000, -2_000_000_000] {
                            let (sum, weighted) = near_half(divisor, whole, part, cost);
                            let dividend = -(256 * sum + weighted);
                            halves += i64::from(2 * dividend == (2 * whole + 1) * divisor);
                            let quotient = sum as f64 * (-256.0 * factor)
                                + weighted as f64 / 256.0 * (-256.0 * factor);
                            let rounded = quotient.round_ties_even() as i64;
                            assert_eq!(rounded, nearest(dividend, divisor));
                        }
                    }
                }
            }
        }
        assert!(halves > 1_000);
    }
}
