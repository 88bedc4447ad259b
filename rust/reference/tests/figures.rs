//! Every figure that document 01 prints, with the limit of K that document 02's
//! request L2 gives it, and the least degree of request L6.

mod common;

use common::*;

fn triples_of_one_check(bits: usize) -> Vec<u16> {
    let mut triples = vec![0; 3 * (bits - 2)];
    let mut counts = vec![0; 2 * bits - 3];
    assert_eq!(SOUND.split(&one_check(bits), &mut triples, &mut counts), 0);
    triples
}

#[test]
fn triples_of_one_check_over_all_bits() {
    assert_eq!(triples_of_one_check(3), [0, 1, 2]);
    assert_eq!(triples_of_one_check(4), [0, 1, 4, 2, 3, 4]);
    assert_eq!(triples_of_one_check(5), [0, 1, 5, 2, 3, 6, 4, 5, 6]);
    let six = [0, 1, 6, 2, 3, 7, 4, 5, 8, 6, 7, 8];
    assert_eq!(triples_of_one_check(6), six);
}

fn cost_of_product(sample: f32, scale: f32) -> i16 {
    let mut costs = [77];
    assert_eq!(
        SOUND.front(Channel::Gaussian(scale), &[sample], &mut costs),
        0
    );
    costs[0]
}

#[test]
fn costs_of_products() {
    assert_eq!(cost_of_product(1.0, 0.5), 1);
    assert_eq!(cost_of_product(-1.0, 0.5), -1);
    assert_eq!(cost_of_product(65_535.0, 0.5), 32_767);
}

const COSTS: [i16; 3] = [20_000, 20_000, -8_000];

#[test]
fn first_iteration_by_hand() {
    let (answer, lent) = decode_small(Settings::new(256, 0, 1, 0), COSTS);
    assert_eq!((answer.k, answer.settled), (1, 0));
    assert_eq!(lent.sums, [0, 0, 0]);
    assert_eq!(lent.values, [-5_000, -5_000, 2_000]);
    assert_eq!(lent.rows, [-18_384, -18_384, -4_384, -24_384]);
}

#[test]
fn second_iteration_by_hand() {
    let (answer, lent) = decode_small(Settings::new(256, 0, 2, 0), COSTS);
    assert_eq!((answer.k, answer.settled), (2, 0));
    assert_eq!(lent.values, [-10_000, -10_000, 4_000]);
    assert_eq!(lent.rows, [-20_384, -20_384, 7_616, -32_384]);
}

#[test]
fn reflected_iteration_by_hand() {
    let mut reflected = [0; 3];
    assert_eq!(SOUND.reflect(&COSTS, &[0, 1, 1], &mut reflected), 0);
    assert_eq!(reflected, [20_000, -20_000, 8_000]);
    let (_, lent) = decode_small(Settings::new(256, 0, 1, 0), reflected);
    assert_eq!(lent.values, [-5_000, 5_000, -2_000]);
    assert_eq!(lent.rows, [-24_384, -4_384, -18_384, -18_384]);
}

fn first_value(weight: u32, cost: i16) -> i16 {
    let (_, lent) = decode_small(Settings::new(weight, 0, 1, 0), [cost, 0, 0]);
    lent.values[0]
}

#[test]
fn halves_go_away_from_zero() {
    assert_eq!(first_value(256, 2), -1);
    assert_eq!(first_value(256, -2), 1);
    assert_eq!(first_value(256, 1), 0);
    assert_eq!(first_value(256, 3), -1);
    assert_eq!(first_value(512, 32_767), -16_384);
}

#[test]
fn all_costs_zero_settle() {
    let undecided = |k| DecodeAnswer {
        number: 16,
        place: 0,
        k,
        settled: 1,
    };
    for (tolerance, k) in [
        (0, 2),
        (1_073_741_823, 2),
        (1_073_741_824, 1),
        (u32::MAX, 1),
    ] {
        let (answer, _) = decode_small(Settings::new(256, 0, 2, tolerance), [0; 3]);
        assert_eq!(answer, undecided(k));
    }
}

#[test]
fn degrees_at_the_edges() {
    for (degree, number) in [(0, 4), (1, 4), (3, 0), (32, 0), (33, 4)] {
        assert_eq!(SOUND.read(&one_check_of(degree)).number, number);
    }
}

/// A check of this degree over as many bits, or over three at least.
fn one_check_of(degree: usize) -> Vec<u8> {
    let all: Vec<usize> = (0..degree).collect();
    code(degree.max(3), &[&all])
}

#[test]
fn settings_at_the_edges() {
    for (ratio, limit, number) in [
        (1_023, 1, 0),
        (1_024, 1, 11),
        (0, 1, 0),
        (0, 1_000, 0),
        (0, 1_001, 0),
        (0, 4_000, 0),
        (0, 0, 11),
        (0, 4_001, 11),
    ] {
        let costs = [20_000; 3];
        let (answer, _) = decode_small(Settings::new(65_535, ratio, limit, 0), costs);
        assert_eq!(answer.number, number, "A = {ratio}, K = {limit}");
    }
}

#[test]
fn the_listing() {
    let mut input = small();
    input.extend([0x4C, 0x53, 1, 0, 0, 0, 0, 2, 0, 0, 0, 0]);
    for costs in [[0; 3], COSTS, [20_000; 3]] {
        input.extend([0x4C, 0x46]);
        input.extend(costs.iter().flat_map(|cost| cost.to_be_bytes()));
    }
    assert_eq!(SOUND.frames(&input), "U 2 1 0\nN 2 0 0\nW 2 0 000\n");
}

#[test]
fn the_same_frames_through_the_decoder() {
    let run = |costs| decode_small(Settings::new(256, 0, 2, 0), costs);
    let (answer, lent) = run([20_000; 3]);
    assert_eq!((answer.number, answer.place), (0, 0));
    assert_eq!(lent.word, [0, 0, 0]);
    let (answer, lent) = run(COSTS);
    assert_eq!((answer.number, answer.place), (17, 0));
    assert_eq!(lent.word, [77; 3]);
}
