//! The pass over the bits.

use super::lanes::limited;
use std::arch::x86_64::*;

// SAFETY for every block below: each x86-64 processor has SSE2, and each index
// is below the length that the layout gives its list.

/// c of the bits of one class, each in `count` checks.
pub fn renew_bits(
    count: usize,
    factor: f64,
    places: &[u16],
    slots: &mut [f32],
    offsets: &[f64],
    sums: &mut [__m128],
    values: &mut [__m128],
) {
    unsafe {
        match count {
            1 => renew_groups(1, factor, places, slots, offsets, sums, values),
            2 => renew_groups(2, factor, places, slots, offsets, sums, values),
            3 => renew_groups(3, factor, places, slots, offsets, sums, values),
            4 => renew_groups(4, factor, places, slots, offsets, sums, values),
            _ => renew_groups(count, factor, places, slots, offsets, sums, values),
        }
    }
}

/// Takes the shares out of the slots and puts c into them.
#[inline(always)]
unsafe fn renew_groups(
    count: usize,
    factor: f64,
    places: &[u16],
    slots: &mut [f32],
    offsets: &[f64],
    sums: &mut [__m128],
    values: &mut [__m128],
) {
    let factor = _mm_set1_pd(factor);
    for group in 0..values.len() {
        let place = |lane: usize, check: usize| {
            usize::from(*places.get_unchecked((4 * group + lane) * count + check))
        };
        let mut lanes = [0.0; 4];
        for (lane, sum) in lanes.iter_mut().enumerate() {
            *sum = *slots.get_unchecked(place(lane, 0));
            for check in 1..count {
                *sum += *slots.get_unchecked(place(lane, check));
            }
        }
        let sum = _mm_setr_ps(lanes[0], lanes[1], lanes[2], lanes[3]);
        let offset = offsets.as_ptr().add(4 * group);
        let low = _mm_mul_pd(_mm_cvtps_pd(sum), factor);
        let high = _mm_mul_pd(_mm_cvtps_pd(_mm_movehl_ps(sum, sum)), factor);
        let low = _mm_add_pd(low, _mm_loadu_pd(offset));
        let high = _mm_add_pd(high, _mm_loadu_pd(offset.add(2)));
        let value = values.get_unchecked_mut(group);
        *sums.get_unchecked_mut(group) = sum;
        *value = limited(low, high);
        let lanes = *(value as *const __m128).cast::<[f32; 4]>();
        for (lane, value) in lanes.into_iter().enumerate() {
            for check in 0..count {
                *slots.get_unchecked_mut(place(lane, check)) = value;
            }
        }
    }
}
