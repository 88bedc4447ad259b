//! The walk over the checks of one degree, for four frames.

use super::super::lanes::shares_of;
use super::quotient::{Quotient, UNIT};
use super::totals::Totals;
use std::arch::x86_64::*;
use std::mem::MaybeUninit;

// SAFETY for every block below: each x86-64 processor has SSE2, and each place
// is below the length that the layout gives its list.

/// Checks whose auxiliaries are done at once: their quotients, one after the other, would keep
/// the rows waiting.
const BLOCK: usize = 16;

/// The most auxiliaries of a check.
const MOST_AUXILIARIES: usize = 29;

/// Where the numbers of the next check start, and the lists of the bits.
#[derive(Clone, Copy)]
pub struct Walk {
    pub rows: *mut __m128,
    /// S of the auxiliaries, and that of the next iteration.
    pub sums: *const __m128,
    pub next_sums: *mut __m128,
    /// For each bit of each check, how many bytes it is from the first.
    pub offsets: *const u32,
    /// c + U of the bits, and their S to come.
    pub values: *const __m128,
    pub next_bit_sums: *mut __m128,
}

/// s of the rows of so many checks, and what they add to every S. Adds to the totals while a
/// frame's are within the tolerance.
pub fn renew_checks(
    degree: usize,
    checks: usize,
    walk: &mut Walk,
    quotient: Quotient,
    totals: &mut Totals,
) {
    unsafe {
        match degree {
            3 => renew_class(3, checks, walk, quotient, totals),
            4 => renew_class(4, checks, walk, quotient, totals),
            5 => renew_class(5, checks, walk, quotient, totals),
            6 => renew_class(6, checks, walk, quotient, totals),
            7 => renew_class(7, checks, walk, quotient, totals),
            8 => renew_class(8, checks, walk, quotient, totals),
            _ => renew_class(degree, checks, walk, quotient, totals),
        }
    }
}

#[inline(always)]
unsafe fn renew_class(
    degree: usize,
    checks: usize,
    walk: &mut Walk,
    quotient: Quotient,
    totals: &mut Totals,
) {
    let mut values = [MaybeUninit::uninit(); BLOCK * MOST_AUXILIARIES];
    let mut left = checks;
    while left > 0 {
        let block = left.min(BLOCK);
        let values = &mut values[..block * (degree - 3)];
        renew_auxiliaries(values, &mut walk.sums, quotient);
        renew_block(degree, block, walk, values.as_ptr().cast(), totals);
        left -= block;
    }
}

/// c + U of auxiliaries from their S, which the place then is behind.
#[inline(always)]
unsafe fn renew_auxiliaries(
    values: &mut [MaybeUninit<__m128>],
    sums: &mut *const __m128,
    quotient: Quotient,
) {
    for value in values {
        value.write(quotient.of_auxiliary(**sums));
        *sums = sums.add(1);
    }
}

/// Renews checks, of whose auxiliaries c + U is given.
#[inline(always)]
unsafe fn renew_block(
    degree: usize,
    checks: usize,
    walk: &mut Walk,
    values: *const __m128,
    totals: &mut Totals,
) {
    let mut place = *walk;
    let mut counted = 0;
    while counted < checks && totals.any_within() {
        let values = values.add(counted * (degree - 3));
        renew_check::<true>(degree, &mut place, values, totals);
        counted += 1;
    }
    for check in counted..checks {
        let values = values.add(check * (degree - 3));
        renew_check::<false>(degree, &mut place, values, totals);
    }
    *walk = place;
}

/// Renews one check and goes to the next. With a degree known to the compiler every loop is
/// written out and the array becomes registers.
#[inline(always)]
unsafe fn renew_check<const COUNTING: bool>(
    degree: usize,
    walk: &mut Walk,
    values: *const __m128,
    totals: &mut Totals,
) {
    // What the triples that make auxiliaries add to their S.
    let mut made = [MaybeUninit::<__m128>::uninit(); MOST_AUXILIARIES];
    for triple in 0..degree - 2 {
        let third = (degree + triple).min(2 * degree - 4);
        let items = [2 * triple, 2 * triple + 1, third];
        let rows = walk.rows.add(4 * triple).cast::<[__m128; 4]>();
        let old = *rows;
        let value = |item: usize| match item < degree {
            true => *walk.values.byte_add(*walk.offsets.add(item) as usize),
            false => *values.add(item - degree),
        };
        let new = renewed(old, items.map(value));
        *rows = new;
        if COUNTING {
            totals.add(old, new);
        }
        for (item, share) in items.into_iter().zip(shares_of(new)) {
            if item < degree {
                let offset = *walk.offsets.add(item) as usize;
                let sum = walk.next_bit_sums.byte_add(offset);
                *sum = _mm_add_ps(*sum, share);
            } else if item == degree + triple {
                made[triple].write(share);
            } else {
                let auxiliary = item - degree;
                let sum = _mm_add_ps(made[auxiliary].assume_init(), share);
                *walk.next_sums.add(auxiliary) = sum;
            }
        }
    }
    walk.rows = walk.rows.add(4 * (degree - 2));
    walk.next_sums = walk.next_sums.add(degree - 3);
    walk.offsets = walk.offsets.add(degree);
}

/// The new s of a triple's four rows, from c + U of its variables.
#[inline(always)]
unsafe fn renewed(old: [__m128; 4], [a, b, c]: [__m128; 3]) -> [__m128; 4] {
    let zero = _mm_setzero_ps();
    let p = old.map(|s| _mm_max_ps(s, zero));
    let plus = _mm_add_ps(a, b);
    let minus = _mm_sub_ps(a, b);
    let lower = _mm_sub_ps(c, _mm_set1_ps(4.0 * UNIT));
    [
        _mm_add_ps(p[0], _mm_sub_ps(minus, c)),
        _mm_sub_ps(p[1], _mm_add_ps(minus, c)),
        _mm_sub_ps(p[2], _mm_sub_ps(plus, c)),
        _mm_add_ps(p[3], _mm_add_ps(plus, lower)),
    ]
}
