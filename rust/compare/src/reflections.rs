//! Reflections of many runs, after every iteration.

use crate::codes::any_code;
use crate::random::Random;
use crate::reflection::{all_kinds_met, Kinds, Reflection};
use crate::seeds;
use interface::{Decoder, Library};
use reference::run::MOST_ITERATIONS;

/// The first seed, unless another is given.
pub const SEED: u64 = 0x5245_464C;

/// Fails unless the decoder reflects every run, with each outcome often enough.
pub fn assert_reflects(decoder: &dyn Decoder, library: &dyn Library) {
    let met = check_reflections(decoder, library, seeds::first(SEED)).unwrap();
    println!("{met:?}");
    assert!(all_kinds_met(&met, 100));
}

/// Checks reflections, with a library's reflector and extension, from a seed on; the
/// outcomes met, or a failure.
pub fn check_reflections(
    decoder: &dyn Decoder,
    library: &dyn Library,
    first: u64,
) -> Result<Kinds, String> {
    let mut met = Kinds::new();
    for seed in first..first + 1_500 {
        let mut random = Random::new(seed);
        let code = any_code(&mut random);
        let mut reflection = Reflection::random(&mut random, code);
        let limit = reflection.settings.limit;
        let longest = random.once_in(30).then_some(MOST_ITERATIONS as u32);
        // Stops the run after each of its first iterations, at its limit, and now and then
        // as late as can be.
        for stop in (1..=limit.min(5)).chain([limit]).chain(longest) {
            reflection.settings.limit = stop;
            let number = reflection
                .check(decoder, library)
                .map_err(|what| format!("seed {seed:#x}: {what}; {reflection:?}"))?;
            reflection.count(number, &mut met);
        }
    }
    Ok(met)
}
