//! From lanes to the caller's lists, and back.

use super::lanes::{auxiliary_value, shares_of};
use super::layout::NO_TRIPLE;
use std::arch::x86_64::*;

// SAFETY for every block below: each x86-64 processor has SSE2; the slice that
// a vector is stored to has four entries.

/// Writes the rows of a block to the checks whose first triples these are.
pub fn write_rows(from: &[__m128], triples: &[usize], rows: &mut [i32]) {
    for (place, vectors) in from.chunks_exact(4).enumerate() {
        let [mut a, mut b, mut c, mut d] = [vectors[0], vectors[1], vectors[2], vectors[3]];
        unsafe { _MM_TRANSPOSE4_PS(&mut a, &mut b, &mut c, &mut d) };
        for (&triple, lane) in triples.iter().zip([a, b, c, d]) {
            let start = 4 * (triple + place);
            let to = &mut rows[start..start + 4];
            unsafe { _mm_storeu_si128(to.as_mut_ptr().cast(), _mm_cvttps_epi32(lane)) };
        }
    }
}

/// Writes S and c of the auxiliaries of a block.
pub fn write_auxiliaries(
    from: &[__m128],
    factor: f64,
    firsts: &[usize],
    sums: &mut [i64],
    values: &mut [i16],
) {
    for (place, &sum) in from.iter().enumerate() {
        let lanes = |vector: __m128| unsafe { std::mem::transmute::<__m128, [f32; 4]>(vector) };
        let value = unsafe { auxiliary_value(sum, _mm_set1_pd(factor)) };
        let both = lanes(sum).into_iter().zip(lanes(value));
        for (&first, (sum, value)) in firsts.iter().zip(both) {
            sums[first + place] = sum as i64;
            values[first + place] = value as i16;
        }
    }
}

/// Reads the rows of a block from the checks whose first triples these are. Lanes without a
/// check stay.
pub fn read_rows(to: &mut [__m128], origins: &[(u32, u32); 4], rows: &[i32]) {
    for (place, vectors) in to.chunks_exact_mut(4).enumerate() {
        let mut lanes = [vectors[0], vectors[1], vectors[2], vectors[3]];
        transpose(&mut lanes);
        for (lane, &(triple, _)) in lanes.iter_mut().zip(origins) {
            if triple != NO_TRIPLE {
                let start = 4 * (triple as usize + place);
                let from = &rows[start..start + 4];
                *lane = unsafe { _mm_cvtepi32_ps(_mm_loadu_si128(from.as_ptr().cast())) };
            }
        }
        transpose(&mut lanes);
        vectors.copy_from_slice(&lanes);
    }
}

fn transpose([a, b, c, d]: &mut [__m128; 4]) {
    unsafe { _MM_TRANSPOSE4_PS(a, b, c, d) };
}

/// Puts what the rows of a block add to the S of its bits into their slots, and adds it to the
/// S of its auxiliaries. A blank has neither.
pub fn add_shares(rows: &[__m128], slots: &mut [__m128], sums: &mut [__m128]) {
    let degree = slots.len();
    for (triple, rows) in rows.chunks_exact(4).enumerate() {
        let shares = unsafe { shares_of([rows[0], rows[1], rows[2], rows[3]]) };
        let third = (degree + triple).min(2 * degree.max(3) - 4);
        for (item, share) in [2 * triple, 2 * triple + 1, third].into_iter().zip(shares) {
            if let Some(slot) = slots.get_mut(item) {
                *slot = share;
            } else if let Some(sum) = sums.get_mut(item - degree) {
                *sum = unsafe { _mm_add_ps(*sum, share) };
            }
        }
    }
}
