//! The lists of four frames that run together, a frame a lane. Every number in them is whole,
//! but for what is left of a cost.

use super::checks::{renew_checks, Walk};
use super::layout::Layout;
use super::lists::{
    entries, entries_mut, lane_mut, write_auxiliaries, write_bits, write_rows, Bits,
};
use super::quotient::{divisor, Quotient};
use super::totals::Totals;
use crate::plain::run::{State, Task};
use interface::Settings;
use std::arch::x86_64::*;
use std::mem::swap;

/// Frames that run at once.
pub const LANES: usize = 4;

pub struct Work<'a> {
    layout: &'a Layout,
    settings: Settings,
    /// s: for each triple four rows.
    rows: &'a mut [__m128],
    /// c + U of the bits, and of the blank.
    values: &'a mut [__m128],
    /// S of the bits, with the whole part of W L / 256, for this iteration and for the next.
    sums: &'a mut [__m128],
    next_sums: &'a mut [__m128],
    /// S of the auxiliaries, for both.
    auxiliary_sums: &'a mut [__m128],
    next_auxiliary_sums: &'a mut [__m128],
    /// The whole part of W L / 256 of each bit, and what the rest adds to its quotient.
    whole: &'a mut [__m128],
    parts: &'a mut [__m128],
    /// The quotients of each class of bits, and that of auxiliaries.
    bit_quotients: Vec<Quotient>,
    auxiliary_quotient: Quotient,
}

/// Takes so many vectors off the front, all of them 0.
fn take<'a>(list: &mut &'a mut [__m128], number: usize) -> Option<&'a mut [__m128]> {
    let (taken, rest) = std::mem::take(list).split_at_mut_checked(number)?;
    // SAFETY: every x86-64 processor has SSE2.
    taken.fill(unsafe { _mm_setzero_ps() });
    *list = rest;
    Some(taken)
}

impl<'a> Work<'a> {
    /// Lanes without a frame in a lent list, if it has the room.
    pub fn new(layout: &'a Layout, settings: Settings, list: &'a mut [i32]) -> Option<Work<'a>> {
        let bits = layout.places.len();
        let quotient = |count: usize| Quotient::new(divisor(count as u32, settings.ratio));
        let classes = layout.bit_classes.iter();
        // SAFETY: any four i32 are a vector.
        let (_, mut list, _) = unsafe { list.align_to_mut::<__m128>() };
        Some(Work {
            layout,
            settings,
            rows: take(&mut list, 4 * layout.triples)?,
            values: take(&mut list, bits + 1)?,
            sums: take(&mut list, bits + 1)?,
            next_sums: take(&mut list, bits + 1)?,
            auxiliary_sums: take(&mut list, layout.auxiliaries)?,
            next_auxiliary_sums: take(&mut list, layout.auxiliaries)?,
            whole: take(&mut list, bits)?,
            parts: take(&mut list, bits)?,
            bit_quotients: classes.map(|class| quotient(class.size)).collect(),
            auxiliary_quotient: quotient(2),
        })
    }

    /// Puts a frame at its start into a lane.
    pub fn start(&mut self, lane: usize, task: &Task) {
        let Settings { weight, ratio, .. } = self.settings;
        let bits = task.costs.iter().zip(task.counts).zip(&self.layout.places);
        for ((&cost, &count), &place) in bits {
            let cost = weight as i32 * i32::from(cost);
            let part = (cost & 255) as f32 / divisor(count.into(), ratio) as f32;
            let place = usize::from(place);
            entries_mut(&mut self.whole[place])[lane] = (cost >> 8) as f32;
            entries_mut(&mut self.parts[place])[lane] = -part;
        }
        self.restart(lane);
    }

    /// Takes the frame out of a lane: one without costs, whose rows stay small.
    pub fn clear(&mut self, lane: usize) {
        lane_mut(self.whole, lane).for_each(|whole| *whole = 0.0);
        lane_mut(self.parts, lane).for_each(|part| *part = 0.0);
        self.restart(lane);
    }

    fn restart(&mut self, lane: usize) {
        lane_mut(self.rows, lane).for_each(|s| *s = 0.0);
        lane_mut(self.auxiliary_sums, lane).for_each(|sum| *sum = 0.0);
        let costs = lane_mut(self.whole, lane);
        lane_mut(self.sums, lane)
            .zip(costs)
            .for_each(|(sum, cost)| *sum = *cost);
    }

    /// The largest s, or 65,536 if none is larger.
    pub fn largest(&self) -> usize {
        // SAFETY: every x86-64 processor has SSE2.
        let least = unsafe { _mm_set1_ps(65536.0) };
        let larger = |most, &s: &__m128| unsafe { _mm_max_ps(most, s) };
        let most = self.rows.iter().fold(least, larger);
        entries(&most).iter().copied().fold(0.0, f32::max) as usize
    }

    /// c of every bit. The sums of the next iteration begin with what the costs add.
    pub fn renew_bits(&mut self) {
        self.next_sums[..self.whole.len()].copy_from_slice(self.whole);
        let mut from = 0;
        for (class, quotient) in self.layout.bit_classes.iter().zip(&self.bit_quotients) {
            let places = from..from + class.members;
            let sums = self.sums[places.clone()].iter();
            let sums = sums.zip(&self.parts[places.clone()]);
            let values = self.values[places].iter_mut();
            values.zip(sums).for_each(|(value, (&sum, &part))| {
                // SAFETY: every x86-64 processor has SSE2.
                *value = unsafe { quotient.of_bit(sum, part) };
            });
            from += class.members;
        }
    }

    /// c of every auxiliary and s of every row; bit l is 1 where the frame in lane l has settled.
    pub fn renew_checks(&mut self, running: [bool; LANES]) -> i32 {
        let mut totals = Totals::new(running, self.settings.tolerance);
        let mut walk = Walk {
            rows: self.rows.as_mut_ptr(),
            sums: self.auxiliary_sums.as_ptr(),
            next_sums: self.next_auxiliary_sums.as_mut_ptr(),
            offsets: self.layout.offsets.as_ptr(),
            values: self.values.as_ptr(),
            next_bit_sums: self.next_sums.as_mut_ptr(),
        };
        for class in &self.layout.check_classes {
            let quotient = self.auxiliary_quotient;
            renew_checks(class.size, class.members, &mut walk, quotient, &mut totals);
        }
        swap(&mut self.sums, &mut self.next_sums);
        swap(&mut self.auxiliary_sums, &mut self.next_auxiliary_sums);
        totals.within()
    }

    /// Writes the lists of the last iteration of the frame in a lane. The swaps have put that
    /// iteration's sums second.
    pub fn write(&self, lane: usize, state: &mut State) {
        let bits = Bits {
            places: &self.layout.places,
            sums: self.next_sums,
            costs: self.whole,
            values: self.values,
        };
        write_bits(lane, bits, state);
        let (origins, sums) = (&self.layout.origins, &*self.next_auxiliary_sums);
        write_auxiliaries(lane, origins, sums, self.auxiliary_quotient, state);
        write_rows(lane, origins, self.rows, state.rows);
    }
}
