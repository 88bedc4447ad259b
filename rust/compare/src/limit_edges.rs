//! Runs that end next to the limit. In the last iteration the numerator of bit 0, which
//! is -(256 S + W L), has a size where the limit, or the rounding to it, begins.
//!
//! All checks of the code are over the same three bits. Bits 1 and 2 have no cost and stay
//! at 0, so no row holds bit 0 back: of its c the next numerator is 1024 c times the
//! count, less W L.

use crate::case::{exact_case, Case};
use crate::codes::Code;
use interface::Settings;
use reference::iteration::UNIT;
use std::ops::RangeInclusive;

/// A run that ends there.
#[derive(Clone, Copy, Debug)]
pub struct Edge {
    /// How many checks there are.
    pub count: usize,
    pub settings: Settings,
    /// The cost of bit 0.
    pub cost: i16,
    /// The size of the last numerator.
    pub size: i64,
}

/// How many sizes `sizes` has.
const SIZES: usize = 7;

/// The largest count whose limit a numerator W L reaches.
const MOST_FIRST: usize = 128;

/// Counts above 31 of edges in the first iteration, and where the search for a ratio begins.
const COUNTS: [usize; 5] = [32, 33, 40, 64, 100];
const RATIOS: [u32; 3] = [0, 150, 700];

/// Where the search for a count of a late edge begins, downwards, and the most iterations
/// to search with.
const LARGE_COUNTS: [usize; 5] = [200, 500, 1_000, 1_500, 2_048];
const MOST_ITERATIONS: i64 = 400;

/// The divisor of a bit of this count.
pub fn divisor(count: usize, ratio: u32) -> i64 {
    1_024 * count as i64 - i64::from(ratio)
}

/// The sizes for a divisor d: the last below (U - 1/2) d, the first from there on, and the
/// first above it; U d, one less and one more; and the first from (U + 1/2) d on, which
/// would be rounded beyond the limit. Some are the same for a small or an odd d.
fn sizes(divisor: i64) -> [i64; SIZES] {
    let (half, limit) = ((2 * UNIT - 1) * divisor, UNIT * divisor);
    [
        (half - 1) / 2,
        (half + 1) / 2,
        half / 2 + 1,
        limit - 1,
        limit,
        limit + 1,
        (half + 2 * divisor + 1) / 2,
    ]
}

/// A weight and a cost whose product this is.
fn factors(product: i64) -> Option<(u32, i16)> {
    let product = u32::try_from(product).ok()?;
    let least = product.div_ceil(65_535);
    let cost = (least..=32_767).find(|&cost| product % cost == 0)?;
    Some((product / cost, cost as i16))
}

impl Edge {
    /// Such a run of one iteration, in which every S is 0.
    fn first(count: usize, ratio: u32, place: usize) -> Option<Edge> {
        let size = sizes(divisor(count, ratio))[place];
        let (weight, cost) = factors(size)?;
        Some(Edge {
            count,
            settings: Settings::new(weight, ratio, 1, 0),
            cost,
            size,
        })
    }

    /// Such a run of k iterations with a ratio of 0. The numerator is k q d + r, where the
    /// rest r changes no rounding: in each iteration c grows by q.
    fn late(count: usize, place: usize) -> Option<Edge> {
        let divisor = divisor(count, 0);
        let size = sizes(divisor)[place];
        let last = (2 * size + divisor) / (2 * divisor);
        (2..=MOST_ITERATIONS).find_map(|k| {
            let step = (last % k == 0).then_some(last / k)?;
            let (weight, cost) = factors(size - (last - step) * divisor)?;
            Some(Edge {
                count,
                settings: Settings::new(weight, 0, k as u32, 0),
                cost,
                size,
            })
        })
    }

    /// The same with the other sign.
    fn negated(self) -> Edge {
        Edge {
            cost: -self.cost,
            ..self
        }
    }

    pub fn case(&self) -> Case {
        let code = Code {
            bits: 3,
            checks: vec![vec![0, 1, 2]; self.count],
        };
        exact_case(&code, self.settings, vec![self.cost, 0, 0])
    }
}

fn with_both_signs(edges: Vec<Edge>) -> Vec<Edge> {
    let both = edges.iter().flat_map(|edge| [*edge, edge.negated()]);
    both.collect()
}

/// Edges in the first iteration: divisors 1, 2 and 3, and for each count and each size the
/// first ratio with which the size is a product of a weight and a cost.
pub fn first() -> Vec<Edge> {
    let mut edges = Vec::new();
    let mut search = |count: usize, ratios: RangeInclusive<u32>| {
        edges.extend((0..SIZES).map(|place| {
            let mut ratios = ratios.clone();
            let edge = ratios.find_map(|ratio| Edge::first(count, ratio, place));
            edge.expect("a ratio for this size")
        }));
    };
    for ratio in 1_021..=1_023 {
        search(1, ratio..=ratio);
    }
    for count in (1..32).chain(COUNTS) {
        for least in RATIOS {
            search(count, least..=1_023);
        }
    }
    with_both_signs(edges)
}

/// Edges after more iterations, for counts whose limit no first numerator reaches: from
/// each start downwards the first count that has one of every size.
pub fn late() -> Vec<Edge> {
    let of_count = |count| (0..SIZES).map(|place| Edge::late(count, place)).collect();
    let edges = LARGE_COUNTS.into_iter().flat_map(|most| {
        let mut counts = (MOST_FIRST + 1..=most).rev();
        let edges: Option<Vec<Edge>> = counts.find_map(of_count);
        edges.expect("a count for all sizes")
    });
    with_both_signs(edges.collect())
}
