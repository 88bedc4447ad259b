//! Runs of the decoder.

use super::Family;
use crate::case::{exact_case, Case};
use crate::codes::{
    code_of, code_within, one_check, regular_code, small_or_training_code, tiny_code,
    training_code, Code,
};
use crate::codewords::Codewords;
use crate::draft::{random_settings, Draft, Entry};
use crate::random::Random;
use interface::Settings;
use reference::iteration::Problem;
use reference::run::run;
use reference::SOUND;

pub fn families() -> Vec<Family> {
    vec![
        Family::listed("grid of small costs", grid),
        Family::listed("settings at the edges", edge_settings),
        Family::random("runs on tiny codes", 6_000, tiny_run),
        Family::random("runs on small codes", 4_000, small_run),
        Family::random("lists of other lengths", 600, other_lengths),
        Family::random("totals equal to the tolerance", 1_200, exact_tolerance),
        Family::random("runs on middle codes", 200, middle_run),
        Family::random("noisy codewords", 100, noisy_codeword),
        Family::random("runs on large codes", 10, large_run),
        Family::listed("runs at the limits", limits),
    ]
}

/// All triples of some costs.
pub fn grid_costs() -> Vec<Vec<i16>> {
    const COSTS: [i16; 7] = [-20_000, -3, -2, 0, 1, 2, 8_000];
    let mut all = Vec::new();
    for first in COSTS {
        for second in COSTS {
            all.extend(COSTS.map(|third| vec![first, second, third]));
        }
    }
    all
}

/// One check with all of them: halves, zeros and equal totals.
fn grid() -> Vec<Case> {
    let mut cases = Vec::new();
    for costs in grid_costs() {
        for limit in 1..=3 {
            let settings = Settings::new(256, 0, limit, 0);
            cases.push(exact_case(&one_check(3), settings, costs.clone()));
        }
    }
    cases
}

/// K at the ends of its range, at the former end and beyond.
const LIMITS: [u32; 10] = [0, 1, 2, 1_000, 1_001, 3_999, 4_000, 4_001, 65_537, u32::MAX];

pub fn edge_settings() -> Vec<Case> {
    let mut cases = Vec::new();
    for weight in [0, 1, 65_535, 65_536, 65_537, u32::MAX] {
        for ratio in [0, 1_023, 1_024, 65_536, u32::MAX] {
            for limit in LIMITS {
                let settings = Settings::new(weight, ratio, limit, u32::MAX);
                cases.push(exact_case(&one_check(4), settings, vec![3, -2, 1, 5]));
            }
        }
    }
    for tolerance in [
        0,
        0x3FFF_FFFF,
        0x4000_0000,
        0x7FFF_FFFF,
        0x8000_0000,
        u32::MAX,
    ] {
        for costs in [[0; 3], [32_767; 3], [-32_767, 32_767, -32_767]] {
            for weight in [256, 512, 65_535] {
                let settings = Settings::new(weight, 0, 5, tolerance);
                cases.push(exact_case(&one_check(3), settings, costs.to_vec()));
            }
        }
    }
    cases
}

pub fn run_of(random: &mut Random, code: fn(&mut Random) -> Code) -> Case {
    let mut draft = Draft::random(random, code);
    if random.once_in(2) {
        draft.lengthen(random);
    }
    draft.case(Entry::Decode)
}

fn tiny_run(random: &mut Random) -> Case {
    run_of(random, tiny_code)
}

fn small_run(random: &mut Random) -> Case {
    run_of(random, small_or_training_code)
}

fn other_lengths(random: &mut Random) -> Case {
    other_lengths_of(random, tiny_code)
}

/// One list shorter than needed or longer, the others exact.
pub fn other_lengths_of(random: &mut Random, code: fn(&mut Random) -> Code) -> Case {
    let mut draft = Draft::random(random, code);
    let list = random.below(6);
    let room = draft.room[list];
    draft.room[list] = random.pick(&[room - 1, room - 1, 0, room + 1, room + 1_000]);
    draft.case(Entry::Decode)
}

fn exact_tolerance(random: &mut Random) -> Case {
    exact_tolerance_of(random, tiny_code)
}

/// A tolerance equal to the larger total of some iteration, or one less.
pub fn exact_tolerance_of(random: &mut Random, code: fn(&mut Random) -> Code) -> Case {
    let mut draft = Draft::random(random, code);
    draft.settings.limit = random.between(2, 40) as u32;
    draft.settings.tolerance = 0;
    let split = SOUND.split_code(&draft.code);
    let problem = Problem::new(SOUND, split, draft.settings, &draft.costs);
    let mut totals = Vec::new();
    run(&problem, &mut |_, both| {
        totals.push(both.multipliers.max(both.slacks))
    });
    let total = totals[random.below(totals.len())];
    let tolerance = total - i128::from(random.once_in(3));
    draft.settings.tolerance = tolerance.clamp(0, u32::MAX.into()) as u32;
    draft.case(Entry::Decode)
}

pub fn middle_run(random: &mut Random) -> Case {
    run_of(random, |random| code_within(random, 400, 200, 1_500))
}

/// A code that corrects errors.
pub fn noisy_code(random: &mut Random) -> Code {
    match random.below(40) {
        0 => regular_code(random, 1_008, 3, 6),
        1..=5 => training_code(),
        _ => regular_code(random, 60, 3, 6),
    }
}

/// Costs of a codeword with so much noise.
pub fn noisy_costs(random: &mut Random, codewords: &Codewords, noise: f64) -> Vec<i16> {
    let codeword = codewords.random(random);
    let costs = codeword.iter().map(|&bit| {
        let sign = 1.0 - 2.0 * f64::from(bit);
        (1_000.0 * sign + noise * random.normal()).round() as i16
    });
    costs.collect()
}

/// Settings that decode, and noise that the code can bear or not.
fn noisy_codeword(random: &mut Random) -> Case {
    let code = noisy_code(random);
    let noise = random.pick(&[400.0, 700.0, 1_000.0]);
    let costs = noisy_costs(random, &Codewords::of(&code), noise);
    let tolerance = random.pick(&[10_000, 10_000_000]);
    let weight = random.pick(&[1_000, 8_000]);
    exact_case(&code, Settings::new(weight, 150, 200, tolerance), costs)
}

fn large_run(random: &mut Random) -> Case {
    run_of(random, |random| code_within(random, 4_096, 600, 8_192))
}

/// Codes at their limits: the widest checks, the most triples, and the most
/// checks over the same three bits.
fn limits() -> Vec<Case> {
    let mut random = Random::new(5);
    let mut cases = Vec::new();
    for (bits, checks, triples, limit) in [
        (4_096, 2_048, 8_192, 20),
        (4_096, 128, 3_840, 20),
        (4_095, 300, 8_192, 10),
        (3, 2_048, 2_048, 1_000),
        (32, 274, 8_192, 100),
    ] {
        let code = code_of(&mut random, bits, checks, triples);
        let mut run = random_settings(&mut random);
        run.limit = limit;
        run.tolerance = 0;
        let costs: Vec<i16> = (0..bits)
            .map(|_| (random.any() as i16).max(-32_767))
            .collect();
        for weight in [run.weight, 65_535] {
            run.weight = weight;
            cases.push(exact_case(&code, run, costs.clone()));
        }
    }
    cases
}
