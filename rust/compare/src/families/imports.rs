//! Alist texts for the import: of random codes, damaged, and large.

use super::Family;
use crate::alist::{styled, text_of, Plan};
use crate::alist_damage::{
    damage_bytes, damage_lists, damage_numbers, some_damage, ListDamage, LIST_DAMAGES,
};
use crate::case::Case;
use crate::codes::{code_of, code_within, small_code, tiny_code, Code};
use crate::random::Random;

pub fn families() -> Vec<Family> {
    vec![
        Family::listed("texts of the largest codes", largest),
        Family::random("exports imported again", 600, exported),
        Family::random("texts in other styles", 800, other_style),
        Family::random("damaged lists, tiny codes", 3_000, damaged_tiny),
        Family::random("damaged lists, small codes", 1_000, damaged_small),
        Family::random("texts of any numbers", 1_500, any_numbers),
        Family::listed("pairs of damaged lists", damage_pairs),
        Family::listed("texts about the most triples", most_triples),
        Family::listed("sizes at the edges", edge_sizes),
        Family::random("large texts", 3, large),
    ]
}

/// Room for these lists and this text: enough, mostly.
fn some_room(random: &mut Random, plan: &Plan, text: &[u8]) -> usize {
    let needed = plan.record_bytes();
    match random.below(8) {
        0 => needed - 1,
        1 => random.below(needed),
        2 => needed + random.between(1, 9),
        3 => text.len(),
        _ => needed,
    }
}

fn exported(random: &mut Random) -> Case {
    let code = match random.below(3) {
        0 => small_code(random),
        _ => tiny_code(random),
    };
    let plan = Plan::of(&code);
    let text = text_of(&plan.lines());
    let room = some_room(random, &plan, &text);
    Case::Import { text, room }
}

fn other_style(random: &mut Random) -> Case {
    let code = match random.below(3) {
        0 => small_code(random),
        _ => tiny_code(random),
    };
    let mut plan = Plan::of(&code);
    plan.shuffle_columns(random);
    let text = styled(random, &plan.numbers());
    let room = some_room(random, &plan, &text);
    Case::Import { text, room }
}

/// A text of these lists, with damage to its numbers and bytes now and then.
fn written(random: &mut Random, plan: &Plan) -> Case {
    let mut numbers = plan.numbers();
    if random.once_in(6) {
        damage_numbers(random, &mut numbers);
    }
    let mut text = styled(random, &numbers);
    if random.once_in(12) {
        damage_bytes(random, &mut text);
    }
    let room = some_room(random, plan, &text);
    Case::Import { text, room }
}

/// A text of a code with damaged lists, mostly.
pub fn damaged(random: &mut Random, code: Code) -> Case {
    let mut plan = Plan::of(&code);
    if random.once_in(2) {
        plan.shuffle_columns(random);
    }
    for _ in 0..random.below(4) {
        let damage = some_damage(random);
        damage_lists(random, &mut plan, damage);
    }
    written(random, &plan)
}

fn damaged_tiny(random: &mut Random) -> Case {
    let code = tiny_code(random);
    damaged(random, code)
}

fn damaged_small(random: &mut Random) -> Case {
    let code = small_code(random);
    damaged(random, code)
}

fn damage_pairs() -> Vec<Case> {
    damage_pairs_of(9, small_code)
}

/// Every pair of damages to the lists, with room or without.
pub fn damage_pairs_of(seed: u64, code: fn(&mut Random) -> Code) -> Vec<Case> {
    let mut random = Random::new(seed);
    let mut cases = Vec::new();
    for first in LIST_DAMAGES {
        for second in LIST_DAMAGES {
            let mut plan = Plan::of(&code(&mut random));
            damage_lists(&mut random, &mut plan, first);
            damage_lists(&mut random, &mut plan, second);
            let text = text_of(&plan.lines());
            let room = plan.record_bytes() - random.below(2);
            cases.push(Case::Import { text, room });
        }
    }
    cases
}

/// Few bits and checks, and numbers that fit them more or less.
fn any_numbers(random: &mut Random) -> Case {
    let (bits, checks) = (random.below(4), random.below(3));
    let (column, row) = (random.below(3), random.below(4));
    let mut numbers = vec![bits, checks, column, row];
    for (count, most) in [
        (bits, column),
        (checks, row),
        (bits * column, checks),
        (checks * row, bits),
    ] {
        numbers.extend((0..count).map(|_| random.below(most + 1)));
    }
    if random.once_in(8) {
        damage_numbers(random, &mut numbers);
    }
    let text = styled(random, &numbers);
    let room = random.pick(&[0, 6, 15, 100]);
    Case::Import { text, room }
}

/// Sizes within their ranges and beyond, with no places at all.
fn edge_sizes() -> Vec<Case> {
    let mut sizes = vec![(65_535, 65_535, 131_069), (65_535, 65_535, 131_071)];
    for bits in [0, 2, 3, 4_096, 4_097, 65_535] {
        for checks in [0, 1, 2_048, 2_049, 65_535] {
            sizes.push((bits, checks, bits + checks));
        }
    }
    let case = |(bits, checks, zeros)| Case::Import {
        text: format!("{bits} {checks} 0 0{}", " 0".repeat(zeros)).into(),
        room: 6,
    };
    sizes.into_iter().map(case).collect()
}

/// Most with more triples than allowed, and with another cause against them.
fn most_triples() -> Vec<Case> {
    let mut random = Random::new(14);
    let cases = (0..400).map(|_| about_most_triples(&mut random));
    cases.collect()
}

fn about_most_triples(random: &mut Random) -> Case {
    let bits = random.between(32, 50);
    let triples = random.pick(&[8_191, 8_192, 8_193, 8_193, 8_194, 8_200]);
    let code = code_of(random, bits, 280, triples);
    damaged_most_triples(random, &code)
}

/// Damage beside which there may be too many triples.
pub fn damaged_most_triples(random: &mut Random, code: &Code) -> Case {
    let mut plan = Plan::of(code);
    let damage = random.pick(&[
        ListDamage::Excess,
        ListDamage::OtherIndex,
        ListDamage::ManyChecks,
        ListDamage::HighDegree,
        ListDamage::Order,
        ListDamage::TwiceBoth,
        ListDamage::Unused,
    ]);
    if !random.once_in(4) {
        damage_lists(random, &mut plan, damage);
    }
    let text = text_of(&plan.lines());
    let room = some_room(random, &plan, &text);
    Case::Import { text, room }
}

fn large(random: &mut Random) -> Case {
    let mut plan = Plan::of(&code_within(random, 4_096, 2_048, 8_192));
    plan.shuffle_columns(random);
    written(random, &plan)
}

/// Codes at the limits of bits, checks, degrees and triples, and just beyond.
fn largest() -> Vec<Case> {
    let mut random = Random::new(10);
    let mut cases = Vec::new();
    for (bits, checks, triples) in [
        (4_096, 2_048, 8_192),
        (4_096, 2_048, 8_193),
        (4_097, 200, 5_000),
        (4_096, 2_049, 8_192),
        (4_096, 128, 3_840),
        (3, 2_048, 2_048),
        (3, 2_049, 2_049),
        (32, 274, 8_192),
        (32, 274, 8_193),
    ] {
        let mut plan = Plan::of(&code_of(&mut random, bits, checks, triples));
        for _ in 0..2 {
            let text = text_of(&plan.lines());
            for room in [plan.record_bytes(), plan.record_bytes() - 1] {
                let text = text.clone();
                cases.push(Case::Import { text, room });
            }
            plan.columns.push(Vec::new());
        }
    }
    cases
}
