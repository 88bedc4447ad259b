//! From a lane to the caller's lists.

use super::layout::Origin;
use super::quotient::{Quotient, UNIT};
use crate::plain::run::State;
use std::arch::x86_64::*;

/// The entries of a vector, one for each lane.
pub fn entries(vector: &__m128) -> &[f32; 4] {
    // SAFETY: a vector is four f32, and its alignment is stricter.
    unsafe { &*(vector as *const __m128).cast() }
}

pub fn entries_mut(vector: &mut __m128) -> &mut [f32; 4] {
    // SAFETY: a vector is four f32, and its alignment is stricter.
    unsafe { &mut *(vector as *mut __m128).cast() }
}

/// What a list holds of a lane.
pub fn lane_mut(list: &mut [__m128], lane: usize) -> impl Iterator<Item = &mut f32> {
    list.iter_mut()
        .map(move |vector| &mut entries_mut(vector)[lane])
}

/// A whole number that fits.
fn whole(number: f32) -> i32 {
    // SAFETY: s, S and c of a run in floats are below 2^25.
    unsafe { number.to_int_unchecked() }
}

/// The lists of the bits.
pub struct Bits<'a> {
    pub places: &'a [u16],
    pub sums: &'a [__m128],
    /// What their costs add to the sums.
    pub costs: &'a [__m128],
    pub values: &'a [__m128],
}

/// Writes S and c of the bits.
pub fn write_bits(lane: usize, bits: Bits, state: &mut State) {
    let written = state.sums.iter_mut().zip(state.values.iter_mut());
    for ((sum, value), &place) in written.zip(bits.places) {
        let of = |list: &[__m128]| entries(&list[usize::from(place)])[lane];
        *sum = whole(of(bits.sums) - of(bits.costs)).into();
        *value = whole(of(bits.values) - UNIT) as i16;
    }
}

/// Writes S and c of the auxiliaries.
pub fn write_auxiliaries(
    lane: usize,
    origins: &[Origin],
    sums: &[__m128],
    quotient: Quotient,
    state: &mut State,
) {
    let mut sums = sums.iter();
    for origin in origins {
        let auxiliaries = origin.auxiliary..origin.auxiliary + origin.degree - 3;
        let written = state.sums[auxiliaries.clone()].iter_mut();
        let written = written.zip(&mut state.values[auxiliaries]);
        for ((sum, value), from) in written.zip(&mut sums) {
            // SAFETY: every x86-64 processor has SSE2.
            let values = unsafe { quotient.of_auxiliary(*from) };
            *sum = whole(entries(from)[lane]).into();
            *value = whole(entries(&values)[lane] - UNIT) as i16;
        }
    }
}

/// Writes the rows of the triples.
pub fn write_rows(lane: usize, origins: &[Origin], from: &[__m128], rows: &mut [i32]) {
    let mut triples = from.chunks_exact(4);
    for origin in origins {
        let written = &mut rows[4 * origin.triple..][..4 * (origin.degree - 2)];
        for (to, from) in written.chunks_exact_mut(4).zip(&mut triples) {
            let s = |row: usize| entries(&from[row])[lane];
            // SAFETY: every x86-64 processor has SSE2; there are four entries.
            unsafe {
                let s = _mm_cvttps_epi32(_mm_setr_ps(s(0), s(1), s(2), s(3)));
                _mm_storeu_si128(to.as_mut_ptr().cast(), s);
            }
        }
    }
}
