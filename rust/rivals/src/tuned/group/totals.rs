//! The squares of the changes of p and z, a total of each for every frame.

use std::arch::x86_64::*;

// SAFETY for every block below: each x86-64 processor has SSE2.

/// Tolerances below this are compared exactly: up to 2^24 every sum of squares is a whole
/// number of f32, and a larger one is never rounded below that.
pub const MOST_TOLERANCE: u32 = 1 << 24;

pub struct Totals {
    multipliers: __m128,
    slacks: __m128,
    tolerance: __m128,
}

impl Totals {
    /// Nothing yet for the frames that run; the other lanes are beyond every tolerance.
    pub fn new(running: [bool; 4], tolerance: u32) -> Totals {
        let start = running.map(|runs| if runs { 0.0 } else { f32::INFINITY });
        unsafe {
            let start = _mm_loadu_ps(start.as_ptr());
            Totals {
                multipliers: start,
                slacks: start,
                tolerance: _mm_set1_ps(tolerance as f32),
            }
        }
    }

    /// Bit l is 1 where neither total of lane l exceeds the tolerance.
    #[inline(always)]
    pub fn within(&self) -> i32 {
        unsafe {
            let larger = _mm_max_ps(self.multipliers, self.slacks);
            _mm_movemask_ps(_mm_cmple_ps(larger, self.tolerance))
        }
    }

    #[inline(always)]
    pub fn any_within(&self) -> bool {
        self.within() != 0
    }

    /// Adds what four rows changed.
    #[inline(always)]
    pub unsafe fn add(&mut self, old: [__m128; 4], new: [__m128; 4]) {
        let zero = _mm_setzero_ps();
        for (old, new) in old.into_iter().zip(new) {
            let multiplier = _mm_sub_ps(_mm_max_ps(new, zero), _mm_max_ps(old, zero));
            let slack = _mm_sub_ps(_mm_sub_ps(new, old), multiplier);
            let square = _mm_mul_ps(multiplier, multiplier);
            self.multipliers = _mm_add_ps(self.multipliers, square);
            self.slacks = _mm_add_ps(self.slacks, _mm_mul_ps(slack, slack));
        }
    }
}
