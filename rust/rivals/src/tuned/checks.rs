//! The pass over the checks.

use super::lanes::{auxiliary_value, renewed, renewed_pair, shares_of, shares_of_pair, Totals};
use std::arch::x86_64::*;
use std::mem::MaybeUninit;

// SAFETY for every block below: each x86-64 processor has SSE2, and each index
// is below the length that the layout gives its list.

/// The lists of the blocks of one class, each block's vectors together.
pub struct Blocks<'a> {
    pub rows: &'a mut [__m128],
    pub slots: &'a mut [__m128],
    pub sums: &'a [__m128],
    pub next_sums: &'a mut [__m128],
}

/// s of the rows of a class of checks, and what they add to every S. Adds to
/// the totals until one exceeds the tolerance.
pub fn renew_checks(
    degree: usize,
    blocks: Blocks,
    factor: f64,
    tolerance: f64,
    totals: &mut Totals,
) {
    unsafe {
        match degree {
            2 => renew_pairs(blocks, tolerance, totals),
            3 => renew_blocks(3, blocks, factor, tolerance, totals),
            4 => renew_blocks(4, blocks, factor, tolerance, totals),
            5 => renew_blocks(5, blocks, factor, tolerance, totals),
            6 => renew_blocks(6, blocks, factor, tolerance, totals),
            7 => renew_blocks(7, blocks, factor, tolerance, totals),
            8 => renew_blocks(8, blocks, factor, tolerance, totals),
            _ => renew_blocks(degree, blocks, factor, tolerance, totals),
        }
    }
}

#[inline(always)]
unsafe fn renew_blocks(
    degree: usize,
    blocks: Blocks,
    factor: f64,
    tolerance: f64,
    totals: &mut Totals,
) {
    let number = blocks.slots.len() / degree;
    let mut block = Block {
        rows: blocks.rows.as_mut_ptr(),
        slots: blocks.slots.as_mut_ptr(),
        sums: blocks.sums.as_ptr(),
        next_sums: blocks.next_sums.as_mut_ptr(),
    };
    let mut counted = 0;
    while counted < number && totals.within(tolerance) {
        renew_block::<true>(degree, &mut block, factor, totals);
        counted += 1;
    }
    for _ in counted..number {
        renew_block::<false>(degree, &mut block, factor, totals);
    }
}

/// The same for checks of two bits.
#[inline(always)]
unsafe fn renew_pairs(blocks: Blocks, tolerance: f64, totals: &mut Totals) {
    let slots = blocks.slots.chunks_exact_mut(2);
    let mut blocks = slots.zip(blocks.rows.chunks_exact_mut(4));
    while totals.within(tolerance) {
        let Some((slots, rows)) = blocks.next() else {
            return;
        };
        renew_pair::<true>(slots, rows, totals);
    }
    for (slots, rows) in blocks {
        renew_pair::<false>(slots, rows, totals);
    }
}

/// Takes c of both bits out of the slots and puts their shares into them.
#[inline(always)]
unsafe fn renew_pair<const COUNTING: bool>(
    slots: &mut [__m128],
    rows: &mut [__m128],
    totals: &mut Totals,
) {
    let sum = _mm_add_ps(slots[0], slots[1]);
    let difference = _mm_sub_ps(slots[0], slots[1]);
    let new = renewed_pair([rows[0], rows[1]], sum, difference);
    if COUNTING {
        for (&old, &new) in rows.iter().zip(&new) {
            totals.add(old, new);
        }
    }
    rows.copy_from_slice(&new);
    slots.copy_from_slice(&shares_of_pair([new[0], new[1]], sum));
}

/// Where the vectors of a block start.
struct Block {
    rows: *mut __m128,
    slots: *mut __m128,
    sums: *const __m128,
    next_sums: *mut __m128,
}

/// Takes c of the bits out of the slots, puts their shares into them, and goes
/// to the next block. With a degree known to the compiler every loop is written
/// out and the arrays become registers.
#[allow(clippy::needless_range_loop)]
#[inline(always)]
unsafe fn renew_block<const COUNTING: bool>(
    degree: usize,
    block: &mut Block,
    factor: f64,
    totals: &mut Totals,
) {
    let factor = _mm_set1_pd(factor);
    // c of the items; what the triple that uses an item adds to its S; and
    // what the triple that makes an auxiliary adds.
    let mut items = [MaybeUninit::<__m128>::uninit(); 61];
    let mut used = [MaybeUninit::<__m128>::uninit(); 61];
    let mut made = [MaybeUninit::<__m128>::uninit(); 30];
    for place in 0..degree {
        items[place].write(*block.slots.add(place));
    }
    for place in 0..degree - 3 {
        items[degree + place].write(auxiliary_value(*block.sums.add(place), factor));
    }
    for triple in 0..degree - 2 {
        let third = (degree + triple).min(2 * degree - 4);
        let places = [2 * triple, 2 * triple + 1, third];
        let rows = block.rows.add(4 * triple).cast::<[__m128; 4]>();
        let old = *rows;
        let new = renewed(old, places.map(|place| items[place].assume_init()));
        *rows = new;
        if COUNTING {
            for row in 0..4 {
                totals.add(old[row], new[row]);
            }
        }
        let shares = shares_of(new);
        used[2 * triple].write(shares[0]);
        used[2 * triple + 1].write(shares[1]);
        if triple < degree - 3 {
            made[triple].write(shares[2]);
        } else {
            used[2 * degree - 4].write(shares[2]);
        }
    }
    for place in 0..degree {
        *block.slots.add(place) = used[place].assume_init();
    }
    for place in 0..degree - 3 {
        let sum = _mm_add_ps(
            used[degree + place].assume_init(),
            made[place].assume_init(),
        );
        *block.next_sums.add(place) = sum;
    }
    block.rows = block.rows.add(4 * (degree - 2));
    block.slots = block.slots.add(degree);
    block.sums = block.sums.add(degree - 3);
    block.next_sums = block.next_sums.add(degree - 3);
}
