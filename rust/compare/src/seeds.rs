//! Seeds are always the same, unless COMPARE_SEED holds another number.

use crate::random::Random;
use std::env;

/// The number in COMPARE_SEED.
pub fn other() -> Option<u64> {
    let number = env::var("COMPARE_SEED").ok()?;
    Some(number.parse().expect("COMPARE_SEED is a number"))
}

/// The first seed of a check: its own, or that and the other number, mixed.
pub fn first(own: u64) -> u64 {
    match other() {
        Some(other) => Random::new(own ^ other).any() >> 16,
        None => own,
    }
}
