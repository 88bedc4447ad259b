//! The limit of c: numerators next to where it begins, and values that stay there.

use super::Family;
use crate::case::{exact_case, Case};
use crate::codes::{regular_code, with_own_check};
use crate::limit_edges::{first, late, Edge};
use crate::random::Random;
use interface::Settings;

pub fn families() -> Vec<Family> {
    vec![
        Family::listed("edges of the limit", || cases(&first())),
        Family::listed(
            "edges of the limit after more iterations",
            || cases(&late()),
        ),
        Family::random("values at the limit", 10, settled_beside_unsettled),
    ]
}

fn cases(edges: &[Edge]) -> Vec<Case> {
    edges.iter().map(Edge::case).collect()
}

/// Nearly all values come to the limit and stay there to the end of the run, since one
/// check of three bits of its own never settles.
pub fn settled_beside_unsettled(random: &mut Random) -> Case {
    let count = random.pick(&[3, 16, 31, 32, 40, 48]);
    let code = regular_code(random, 30, count, 3);
    let place = random.pick(&[0, code.checks.len()]);
    let code = with_own_check(code, place);
    let mut costs = vec![-20_000; 33];
    for cost in &mut costs[..30] {
        *cost = (1_000.0 + 300.0 * random.normal()).round() as i16;
    }
    let limit = random.between(300, 500) as u32;
    exact_case(&code, Settings::new(8_000, 150, limit, 0), costs)
}
