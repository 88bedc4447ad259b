//! Texts that take long to refuse: of up to 1 MB, within 2 seconds, and of up to 16 MB,
//! within 10.
//!
//! The library keeps no list of places: it counts them in windows of 65,536, and walks
//! the rows again for each window beside another, the columns for each below another.
//! So the worst texts have as many columns and rows as can be, as much text in columns as
//! in rows, and nothing to refuse before the last window; then 19, or 3 for the sizes.
//! A width is a power of 2: at equal bytes both are walked 256 times, with one byte more
//! in rows these are walked 128 times and columns 512 times. Zeros are the most numbers
//! for their bytes. Of places in any order a processor cannot foresee whether they lie
//! before a window or behind it; with places in outer columns and rows alone this holds
//! for most windows.

use crate::places::{all, none, outer, spoil_last, zeros, MOST};
use crate::texts::{written, Style};
use compare::alist::Plan;

pub struct Refused {
    pub name: &'static str,
    pub number: u32,
    /// Seconds that it may take.
    pub bar: f64,
    pub text: fn() -> Vec<u8>,
}

const fn small(name: &'static str, number: u32, text: fn() -> Vec<u8>) -> Refused {
    Refused {
        name,
        number,
        bar: 2.0,
        text,
    }
}

const fn large(name: &'static str, number: u32, text: fn() -> Vec<u8>) -> Refused {
    Refused {
        name,
        number,
        bar: 10.0,
        text,
    }
}

pub const REFUSED: [Refused; 14] = [
    small("no places", 3, || equal(none(MOST, MOST))),
    small("one row of 65,535", 3, || equal(all(MOST, 1))),
    small("one column of 65,535", 3, || equal(all(1, MOST))),
    small("zeros", 3, || equal(zeros([2, 2]))),
    small("zeros, 19 in the last window", 19, || {
        uneven(spoil_last(zeros([2, 2])))
    }),
    small("zeros, loosely written", 3, || loose(zeros([1, 1]))),
    small("places in outer rows", 3, || {
        uneven(outer([MOST / 2, 16_384], 28_000, [2, 2]))
    }),
    large("zeros, rows far longer", 3, || equal(zeros([1, 118]))),
    large("zeros, columns far longer", 3, || equal(zeros([118, 1]))),
    large("zeros", 3, || equal(zeros([60, 60]))),
    large("zeros, 19 in the last window", 19, || {
        uneven(spoil_last(zeros([60, 60])))
    }),
    large("zeros, loosely written", 3, || loose(zeros([29, 29]))),
    large("places in all rows", 3, || {
        uneven(outer([MOST / 2; 2], 20 * (MOST - 1), [20, 20]))
    }),
    large("places in outer rows", 3, || {
        uneven(outer([16_384; 2], 29 * 32_768, [33, 33]))
    }),
];

fn equal(plan: Plan) -> Vec<u8> {
    written(&plan, Style::Tight, 0)
}

/// With a byte more in rows.
fn uneven(plan: Plan) -> Vec<u8> {
    written(&plan, Style::Tight, 1)
}

/// With spaces enough to have more bytes in rows.
fn loose(plan: Plan) -> Vec<u8> {
    written(&plan, Style::Loose, 10_000)
}
