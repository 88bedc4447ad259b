//! Four numbers at a time: quotients, rows of a triple, and totals.

use std::arch::x86_64::*;

// SAFETY for every block below: each x86-64 processor has SSE2.

/// Rounds four quotients, given in two halves, and limits them.
#[inline(always)]
pub unsafe fn limited(low: __m128d, high: __m128d) -> __m128 {
    let whole = _mm_unpacklo_epi64(_mm_cvtpd_epi32(low), _mm_cvtpd_epi32(high));
    let unit = _mm_set1_ps(16384.0);
    let below = _mm_min_ps(_mm_cvtepi32_ps(whole), unit);
    _mm_max_ps(below, _mm_sub_ps(_mm_setzero_ps(), unit))
}

/// c of four auxiliaries from their S.
#[inline(always)]
pub unsafe fn auxiliary_value(sum: __m128, factor: __m128d) -> __m128 {
    let low = _mm_cvtps_pd(sum);
    let high = _mm_cvtps_pd(_mm_movehl_ps(sum, sum));
    limited(_mm_mul_pd(low, factor), _mm_mul_pd(high, factor))
}

/// The new s of a triple's four rows.
#[inline(always)]
pub unsafe fn renewed(old: [__m128; 4], [a, b, c]: [__m128; 3]) -> [__m128; 4] {
    let zero = _mm_setzero_ps();
    let unit = _mm_set1_ps(16384.0);
    let plus = _mm_add_ps(a, b);
    let minus = _mm_sub_ps(a, b);
    let with = _mm_sub_ps(c, unit);
    let without = _mm_sub_ps(_mm_sub_ps(zero, unit), c);
    [
        _mm_add_ps(_mm_max_ps(old[0], zero), _mm_add_ps(without, minus)),
        _mm_add_ps(_mm_max_ps(old[1], zero), _mm_sub_ps(without, minus)),
        _mm_add_ps(_mm_max_ps(old[2], zero), _mm_sub_ps(with, plus)),
        _mm_add_ps(_mm_max_ps(old[3], zero), _mm_add_ps(with, plus)),
    ]
}

/// What four rows add to the S of their three variables.
#[inline(always)]
pub unsafe fn shares_of(rows: [__m128; 4]) -> [__m128; 3] {
    let sign = _mm_set1_ps(-0.0);
    let size = rows.map(|s| _mm_andnot_ps(sign, s));
    let outer = _mm_add_ps(size[3], size[0]);
    let outer_change = _mm_sub_ps(size[3], size[0]);
    let inner = _mm_add_ps(size[1], size[2]);
    let inner_change = _mm_sub_ps(size[1], size[2]);
    [
        _mm_sub_ps(outer, inner),
        _mm_add_ps(outer_change, inner_change),
        _mm_sub_ps(outer_change, inner_change),
    ]
}

/// The new s of the four rows of two bits and a blank, from the sum and the difference of the
/// bits' c. No multiplier of the last two rows is ever above 0, since c is at most U.
#[inline(always)]
pub unsafe fn renewed_pair(old: [__m128; 2], sum: __m128, difference: __m128) -> [__m128; 4] {
    let zero = _mm_setzero_ps();
    let most = _mm_set1_ps(32768.0);
    [
        _mm_add_ps(_mm_max_ps(old[0], zero), difference),
        _mm_sub_ps(_mm_max_ps(old[1], zero), difference),
        _mm_sub_ps(_mm_sub_ps(zero, most), sum),
        _mm_sub_ps(sum, most),
    ]
}

/// What these rows add to the S of the two bits: the sizes of the last two differ by twice the
/// sum.
#[inline(always)]
pub unsafe fn shares_of_pair(rows: [__m128; 2], sum: __m128) -> [__m128; 2] {
    let sign = _mm_set1_ps(-0.0);
    let [first, second] = rows.map(|s| _mm_andnot_ps(sign, s));
    let change = _mm_sub_ps(first, second);
    let back = _mm_add_ps(sum, sum);
    [
        _mm_sub_ps(change, back),
        _mm_sub_ps(_mm_sub_ps(_mm_setzero_ps(), change), back),
    ]
}

/// The squares of the changes of p and z, two lanes each; exact, since they
/// stay below 2^53.
pub struct Totals {
    multipliers: __m128d,
    slacks: __m128d,
}

impl Totals {
    pub fn new() -> Totals {
        let zero = unsafe { _mm_setzero_pd() };
        Totals {
            multipliers: zero,
            slacks: zero,
        }
    }

    /// Whether neither total exceeds the tolerance.
    #[inline(always)]
    pub fn within(&self, tolerance: f64) -> bool {
        unsafe {
            let low = _mm_unpacklo_pd(self.multipliers, self.slacks);
            let high = _mm_unpackhi_pd(self.multipliers, self.slacks);
            let exceeded = _mm_cmpgt_pd(_mm_add_pd(low, high), _mm_set1_pd(tolerance));
            _mm_movemask_pd(exceeded) == 0
        }
    }

    #[inline(always)]
    pub unsafe fn add(&mut self, old: __m128, new: __m128) {
        let zero = _mm_setzero_ps();
        let change = _mm_sub_ps(_mm_max_ps(new, zero), _mm_max_ps(old, zero));
        self.multipliers = add_squares(self.multipliers, change);
        let change = _mm_sub_ps(_mm_min_ps(new, zero), _mm_min_ps(old, zero));
        self.slacks = add_squares(self.slacks, change);
    }
}

#[inline(always)]
unsafe fn add_squares(total: __m128d, change: __m128) -> __m128d {
    let low = _mm_cvtps_pd(change);
    let high = _mm_cvtps_pd(_mm_movehl_ps(change, change));
    let squares = _mm_add_pd(_mm_mul_pd(low, low), _mm_mul_pd(high, high));
    _mm_add_pd(total, squares)
}
