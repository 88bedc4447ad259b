//! Runs of up to 4,000 iterations: those that do not settle before, those that settle
//! late, rows beyond what 1,000 iterations reach, and bits in very many checks.

use super::Family;
use crate::case::{exact_case, Case};
use crate::codes::{code_of, crowded_code, regular_code, tiny_code, Code};
use crate::draft::{wild_costs, Draft, Entry};
use crate::random::Random;
use crate::strained::{strained_code, straining_costs};
use interface::Settings;

pub fn families() -> Vec<Family> {
    vec![
        Family::random("long runs", 100, long_run),
        Family::random("check under strain", 12, strained_run),
        Family::random("runs of four thousand iterations", 60, longest_run),
        Family::random("long runs with a bit in very many checks", 3, crowded_run),
        Family::listed("four thousand iterations at the limits", limits),
        Family::listed("the largest sum found", largest_sum),
    ]
}

pub fn long_run(random: &mut Random) -> Case {
    let mut draft = Draft::random(random, tiny_code);
    draft.settings.limit = random.pick(&[999, 1_000, 1_001, 3_999, 4_000]);
    draft.settings.tolerance = random.pick(&[0, 0, 1_000]);
    draft.settings.weight = random.pick(&[300, 5_000, 65_535]);
    draft.case(Entry::Decode)
}

/// No bit lies in more checks than the tuned rival takes.
pub fn strained_run(random: &mut Random) -> Case {
    let code = strained_code([0; 3].map(|_| random.between(4, 31)));
    strained_run_of(random, &code, straining_costs)
}

/// A row that grows to the end, or until the other checks give way: the run then
/// settles late. The costs are made from their least size.
pub fn strained_run_of(
    random: &mut Random,
    code: &Code,
    costs: fn(&mut Random, &Code, usize) -> Vec<i16>,
) -> Case {
    let least = random.pick(&[20_000, 30_000, 32_767]);
    let costs = costs(random, code, least);
    let limit = random.pick(&[1_500, 3_999, 4_000, 4_000]);
    let ratio = random.pick(&[0, 150, 1_023]);
    exact_case(code, Settings::new(65_535, ratio, limit, 0), costs)
}

/// Weak costs and a ratio of 0, with which nearly all runs go on to the end, or one
/// of 3, with which many settle late; and the strongest costs.
pub fn longest_run(random: &mut Random) -> Case {
    let code = match random.below(3) {
        0 => regular_code(random, 24, 3, 6),
        _ => tiny_code(random),
    };
    let strong = random.pick(&[0, 3, 150, 512, 1_023]);
    let (weight, most, ratio) = random.pick(&[
        (1, 32_767, 0),
        (16, 300, 0),
        (64, 300, 0),
        (1, 32_767, 3),
        (64, 300, 3),
        (65_535, 32_767, strong),
    ]);
    let costs = wild_costs(random, code.bits, most);
    exact_case(&code, Settings::new(weight, ratio, 4_000, 0), costs)
}

/// With these weights and ratios hardly any run settles.
fn crowded_run(random: &mut Random) -> Case {
    let (checks, limit) = random.pick(&[(1_000, 4_000), (2_048, 1_001), (2_048, 2_000)]);
    let degree = random.pick(&[3, 3, 4, 6]);
    let bits = random.between(100, 1_000);
    let code = crowded_code(random, bits, checks, degree);
    let weight = random.pick(&[64, 1_024, 65_535]);
    let ratio = random.pick(&[512, 1_000, 1_023]);
    let costs = wild_costs(random, bits, 32_767);
    exact_case(&code, Settings::new(weight, ratio, limit, 0), costs)
}

/// Codes at their limits; none of these runs settles. Few bits want 1 everywhere,
/// where all checks are odd.
fn limits() -> Vec<Case> {
    let random = &mut Random::new(5);
    let case = |ratio, code: &Code, costs| {
        let settings = Settings::new(65_535, ratio, 4_000, 0);
        exact_case(code, settings, costs)
    };
    let mut cases = Vec::new();
    for (bits, ratio) in [(3, 512), (4, 0), (5, 1_023)] {
        let code = code_of(random, bits, 2_048, 2_048);
        cases.push(case(ratio, &code, vec![-32_767; bits]));
    }
    for (ratio, code) in [
        (0, code_of(random, 40, 2_048, 2_048)),
        (0, crowded_code(random, 4_096, 2_048, 6)),
        (1_023, code_of(random, 4_096, 2_048, 8_192)),
    ] {
        let costs = wild_costs(random, code.bits, 32_767);
        cases.push(case(ratio, &code, costs));
    }
    let code = strained_code([682; 3]);
    let costs = straining_costs(random, &code, 32_767);
    cases.push(case(1_023, &code, costs));
    cases
}

/// The largest S that a search found, 275,572,480. Bit 0 lies in 2,047 checks, each
/// with two bits of its own. Its cost wants 1, the last 17 checks want 0, and the
/// others follow either.
pub fn largest_sum_run() -> (Code, Settings, Vec<i16>) {
    let code = strained_code([2_046, 0, 0]);
    let mut costs = vec![-32_767];
    costs.extend([0, -348].repeat(2_030));
    costs.extend([32_767; 2].repeat(17));
    (code, Settings::new(65_535, 1_023, 4_000, 0), costs)
}

fn largest_sum() -> Vec<Case> {
    let (code, settings, costs) = largest_sum_run();
    vec![exact_case(&code, settings, costs)]
}
