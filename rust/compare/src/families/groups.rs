//! Groups of frames: runs of the other families among other frames, and frames that stop apart.

use super::decoding::{
    edge_settings, exact_tolerance_of, grid_costs, middle_run, noisy_code, noisy_costs, run_of,
};
use super::long_runs::{largest_sum_run, long_run, longest_run, strained_run};
use super::{limit, two_bits, Family};
use crate::case::{exact_group, Case};
use crate::codes::{
    code_of, code_within, crowded_code, one_check, small_or_training_code, tiny_code,
    training_code, Code,
};
use crate::codewords::Codewords;
use crate::draft::{wild_costs, Draft};
use crate::group::{among_others, around};
use crate::limit_edges::{first, late, Edge};
use crate::random::Random;
use crate::two_bits::{small_two_bit_code, tiny_two_bit_code, two_bit_code, with_two_bits};
use interface::{Settings, MOST_FRAMES};
use reference::iteration::Problem;
use reference::run::run;
use reference::SOUND;

pub fn families() -> Vec<Family> {
    let mut families = listed();
    families.extend(short());
    families.extend(long());
    families
}

fn listed() -> Vec<Family> {
    vec![
        Family::listed("groups on one check", on_one_check),
        Family::listed("groups in which some frames stop early", early_stops),
        Family::listed("groups on every number of triples", every_size),
        Family::listed("groups with settings at the edges", || {
            around_all(31, edge_settings())
        }),
        Family::listed("groups at the edges of the limit", || {
            around_all(32, first().iter().map(Edge::case).collect())
        }),
        Family::listed("groups at late edges of the limit", late_edges),
        Family::listed("groups on the largest codes", largest_groups),
    ]
}

fn short() -> Vec<Family> {
    vec![
        Family::random("groups on tiny codes", 1_500, |random| {
            any_around(random, |random| run_of(random, tiny_code))
        }),
        Family::random("groups on small codes", 800, |random| {
            any_around(random, |random| run_of(random, small_or_training_code))
        }),
        Family::random("groups, totals equal to the tolerance", 400, |random| {
            any_around(random, |random| exact_tolerance_of(random, tiny_code))
        }),
        Family::random("groups, two bits", 400, |random| {
            any_around(random, |random| run_of(random, tiny_two_bit_code))
        }),
        Family::random("groups on small codes, two bits", 200, |random| {
            any_around(random, |random| run_of(random, small_two_bit_code))
        }),
        Family::random("groups of checks of two bits alone", 80, |random| {
            any_around(random, |random| {
                run_of(random, |random| two_bit_code(random, 60))
            })
        }),
        Family::random("groups, many checks of two bits", 2, |random| {
            any_around(random, two_bits::many_checks)
        }),
        Family::random("groups with a bit in many checks", 200, |random| {
            any_around(random, |random| run_of(random, crowded))
        }),
        Family::random("groups on middle codes", 25, |random| {
            any_around(random, middle_run)
        }),
        Family::random("noisy groups", 40, noisy_group),
        Family::random("groups in the order of their stops", 40, in_order_of_stops),
        Family::random("eight frames of the largest codes", 3, |random| {
            largest_group(random, MOST_FRAMES)
        }),
    ]
}

fn long() -> Vec<Family> {
    vec![
        Family::random("groups of values at the limit", 8, |random| {
            any_around(random, limit::settled_beside_unsettled)
        }),
        Family::random("long groups", 30, |random| any_around(random, long_run)),
        Family::random("groups of four thousand iterations", 15, |random| {
            any_around(random, longest_run)
        }),
        Family::random("groups that never settle", 12, never_settling),
        Family::random("long groups, two bits", 15, |random| {
            any_around(random, two_bits::long_run)
        }),
        Family::random("groups with a check under strain", 4, |random| {
            any_around(random, strained_run)
        }),
        Family::random("groups with two bits under strain", 3, |random| {
            any_around(random, two_bits::strained_run)
        }),
        Family::random(
            "long groups with a bit in very many checks",
            1,
            crowded_group,
        ),
        Family::listed("a group with the largest sum found", largest_sum),
    ]
}

fn group(code: &Code, settings: Settings, frames: &[Vec<i16>]) -> Case {
    Case::DecodeGroup(exact_group(code, settings, frames))
}

/// A group of any size around a run.
fn any_around(random: &mut Random, make: fn(&mut Random) -> Case) -> Case {
    let run = make(random);
    let frames = random.between(1, MOST_FRAMES);
    around(random, run, frames)
}

/// A group around each run, of sizes in turn.
fn around_all(seed: u64, runs: Vec<Case>) -> Vec<Case> {
    let mut random = Random::new(seed);
    let sizes = (1..=MOST_FRAMES).cycle();
    let group = |(run, frames)| around(&mut random, run, frames);
    runs.into_iter().zip(sizes).map(group).collect()
}

/// The grid of small costs, so many of them after one another in a group.
fn on_one_check() -> Vec<Case> {
    let costs = grid_costs();
    let mut cases = Vec::new();
    for limit in 1..=3 {
        let settings = Settings::new(256, 0, limit, 0);
        for size in 1..=MOST_FRAMES {
            let groups = costs.chunks(size);
            cases.extend(groups.map(|frames| group(&one_check(3), settings, frames)));
        }
    }
    cases
}

/// Every choice of frames without costs, which settle after two iterations, beside others that go
/// on, in groups of every size.
fn early_stops() -> Vec<Case> {
    let mut random = Random::new(38);
    let mut cases = Vec::new();
    for frames in 1..=MOST_FRAMES {
        for chosen in 0..1usize << frames {
            let code = tiny_code(&mut random);
            let costs = (0..frames).map(|frame| match chosen >> frame & 1 {
                0 => wild_costs(&mut random, code.bits, 300),
                _ => vec![0; code.bits],
            });
            let costs: Vec<Vec<i16>> = costs.collect();
            let settings = Settings::new(64, 0, random.between(3, 30) as u32, 0);
            cases.push(group(&code, settings, &costs));
        }
    }
    cases
}

/// A code of so many triples, some of them of two bits.
fn code_of_triples(random: &mut Random, triples: usize) -> Code {
    let two = random.pick(&[0, 0, 1, 3]).min(triples - 1);
    let checks = random.between((triples - two).div_ceil(4), triples - two);
    let places = triples - two + 2 * checks;
    let bits = random.between(places.min(6), places);
    let code = code_of(random, bits, checks, triples - two);
    with_two_bits(random, code, two, bits)
}

/// Each number of triples up to 140, with up to four frames and with more.
fn every_size() -> Vec<Case> {
    let mut random = Random::new(39);
    let mut cases = Vec::new();
    for triples in 1..=140 {
        for (least, most) in [(1, 4), (5, MOST_FRAMES)] {
            let code = code_of_triples(&mut random, triples);
            let draft = Draft::of(&mut random, code);
            let frames = random.between(least, most);
            let Draft {
                code,
                settings,
                costs,
                ..
            } = draft;
            cases.push(among_others(&mut random, &code, settings, &costs, frames));
        }
    }
    cases
}

/// Two frames each, since these runs are long.
fn late_edges() -> Vec<Case> {
    let mut random = Random::new(33);
    let group = |edge: &Edge| around(&mut random, edge.case(), 2);
    late().iter().map(group).collect()
}

/// One bit in all of the checks: some, more than 8, or more than 31.
fn crowded(random: &mut Random) -> Code {
    let (least, most) = random.pick(&[(3, 8), (9, 31), (32, 70)]);
    let checks = random.between(least, most);
    let degree = random.pick(&[2, 3, 3, 4, 6]);
    let most = (checks * (degree - 1) + 1).min(40);
    let bits = random.between(degree.max(3), most);
    crowded_code(random, bits, checks, degree)
}

/// So many frames, each with a codeword and noise of its own.
fn noisy_frames(random: &mut Random, code: &Code, count: usize) -> Vec<Vec<i16>> {
    let codewords = Codewords::of(code);
    let mut frames = Vec::new();
    for _ in 0..count {
        let noise = random.pick(&[0.0, 300.0, 500.0, 700.0, 800.0, 1_000.0]);
        frames.push(noisy_costs(random, &codewords, noise));
    }
    frames
}

/// Settings that decode.
fn decoding_settings(random: &mut Random) -> Settings {
    let tolerance = random.pick(&[100, 10_000, 10_000_000]);
    Settings::new(random.pick(&[1_000, 8_000]), 150, 200, tolerance)
}

fn noisy_group(random: &mut Random) -> Case {
    let code = noisy_code(random);
    let count = random.between(1, MOST_FRAMES);
    let frames = noisy_frames(random, &code, count);
    group(&code, decoding_settings(random), &frames)
}

/// When a frame stops.
fn stop_of(code: &Code, settings: Settings, costs: &[i16]) -> u32 {
    let problem = Problem::new(SOUND, SOUND.split_code(code), settings, costs);
    run(&problem, &mut |_, _| ()).k
}

/// Frames that stop apart, the one that stops first at the front or at the end.
fn in_order_of_stops(random: &mut Random) -> Case {
    let code = match random.below(4) {
        0 => training_code(),
        _ => code_within(random, 24, 12, 40),
    };
    let settings = decoding_settings(random);
    let mut frames = noisy_frames(random, &code, 16);
    frames.sort_by_cached_key(|costs| stop_of(&code, settings, costs));
    frames.dedup_by_key(|costs| stop_of(&code, settings, costs));
    frames.truncate(random.between(2, MOST_FRAMES));
    if random.once_in(2) {
        frames.reverse();
    }
    group(&code, settings, &frames)
}

/// As many bits, checks and triples as can be.
fn largest_group(random: &mut Random, frames: usize) -> Case {
    let code = code_of(random, 4_096, 2_048, 8_192);
    let mut draft = Draft::of(random, code);
    draft.settings.limit = random.between(1, 3) as u32;
    among_others(random, &draft.code, draft.settings, &draft.costs, frames)
}

fn largest_groups() -> Vec<Case> {
    let mut random = Random::new(40);
    (1..=MOST_FRAMES)
        .map(|frames| largest_group(&mut random, frames))
        .collect()
}

/// So many frames of any costs up to the most.
fn wild_frames(random: &mut Random, bits: usize, most: usize, count: usize) -> Vec<Vec<i16>> {
    (0..count).map(|_| wild_costs(random, bits, most)).collect()
}

/// Weak costs and a ratio of 0: nearly all frames go on to the end.
fn never_settling(random: &mut Random) -> Case {
    let code = tiny_code(random);
    let count = random.between(1, MOST_FRAMES);
    let frames = wild_frames(random, code.bits, 300, count);
    let settings = Settings::new(random.pick(&[16, 64]), 0, 4_000, 0);
    group(&code, settings, &frames)
}

/// One bit in 1,000 checks or more, for more than 1,000 iterations.
fn crowded_group(random: &mut Random) -> Case {
    let degree = random.pick(&[3, 3, 4]);
    let (bits, checks) = (random.between(100, 1_000), random.between(1_000, 1_100));
    let code = crowded_code(random, bits, checks, degree);
    let count = random.between(3, 5);
    let frames = wild_frames(random, bits, 32_767, count);
    let (weight, ratio) = (random.pick(&[1_024, 65_535]), random.pick(&[512, 1_023]));
    group(&code, Settings::new(weight, ratio, 1_001, 0), &frames)
}

/// Between frames that stop early, and one with a false cost.
fn largest_sum() -> Vec<Case> {
    let (code, settings, costs) = largest_sum_run();
    let zeros = vec![0; code.bits];
    let mut wrong = zeros.clone();
    wrong[5] = i16::MIN;
    let frames = [zeros.clone(), costs, wrong, zeros.clone(), zeros];
    vec![group(&code, settings, &frames)]
}
