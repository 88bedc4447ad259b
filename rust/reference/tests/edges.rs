//! Edges of the records, the run, the channel front and words.

mod common;

use common::*;
use reference::quotient::limited;

#[test]
fn the_largest_codes_are_read() {
    let checks: Vec<Vec<usize>> = (0..2_048)
        .map(|check| (0..6).map(|place| (check + 683 * place) % 4_096).collect())
        .map(|mut check: Vec<usize>| {
            check.sort_unstable();
            check
        })
        .collect();
    let checks: Vec<&[usize]> = checks.iter().map(Vec::as_slice).collect();
    let answer = SOUND.read(&code(4_096, &checks));
    assert_eq!(
        (answer.number, answer.bits, answer.checks, answer.triples),
        (0, 4_096, 2_048, 8_192)
    );
}

#[test]
fn equal_checks_are_allowed() {
    let all: &[usize] = &[0, 1, 2];
    let answer = SOUND.read(&code(3, &[all; 2_048]));
    assert_eq!((answer.number, answer.triples), (0, 2_048));
}

#[test]
fn exactly_as_many_triples_as_allowed() {
    let wide: Vec<usize> = (0..32).collect();
    let mut checks: Vec<&[usize]> = vec![&wide; 273];
    checks.push(&wide[..4]);
    assert_eq!(SOUND.read(&code(32, &checks)).triples, 8_192);
    checks.push(&wide[..3]);
    assert_eq!(SOUND.read(&code(32, &checks)).number, 7);
}

#[test]
fn the_first_size_is_judged_before_the_second_is_read() {
    assert_eq!(SOUND.read(&[0x4C, 0x48, 0, 2]).number, 3);
    assert_eq!(SOUND.read(&[0x4C, 0x48, 0, 3]).number, 1);
    assert_eq!(SOUND.read(&[0x4C, 0x48, 0]).number, 1);
}

#[test]
fn quotients() {
    assert_eq!(SOUND.nearest(1, 2), 1);
    assert_eq!(SOUND.nearest(-1, 2), -1);
    assert_eq!(SOUND.nearest(3, 2), 2);
    assert_eq!(SOUND.nearest(-3, 2), -2);
    assert_eq!(SOUND.nearest(4, 3), 1);
    assert_eq!(SOUND.nearest(-5, 3), -2);
    assert_eq!(SOUND.nearest(0, 7), 0);
    assert_eq!(SOUND.nearest(-7, 1), -7);
    assert_eq!(limited(16_385, 16_384), 16_384);
    assert_eq!(limited(-16_385, 16_384), -16_384);
    assert_eq!(limited(-16_384, 16_384), -16_384);
}

#[test]
fn squares_need_more_than_32_bits() {
    // Every c is -U, so the slacks are 0, 0, 0 and 4U: a total of 2^32.
    let (answer, lent) = decode_small(Settings::new(512, 0, 1, 0), [32_767; 3]);
    assert_eq!(lent.rows, [0, 0, 0, -65_536]);
    assert_eq!((answer.number, answer.settled), (0, 0));
}

#[test]
fn totals_equal_to_the_tolerance_settle_even_at_the_limit() {
    let run = |tolerance| decode_small(Settings::new(256, 0, 1, tolerance), [0; 3]).0;
    assert_eq!(run(1_073_741_824).settled, 1);
    assert_eq!(run(1_073_741_823).settled, 0);
}

#[test]
fn undecided_comes_before_not_a_codeword() {
    let two_checks = code(4, &[&[0, 1, 2], &[1, 2, 3]]);
    let mut lent = lists(4, 4, 2);
    let costs = [-9_000, 9_000, 9_000, 0];
    let answer = SOUND.decode(
        &two_checks,
        Settings::new(256, 0, 1, 0),
        &costs,
        lent.lend(),
    );
    let undecided = DecodeAnswer {
        number: 16,
        place: 3,
        k: 1,
        settled: 0,
    };
    assert_eq!(answer, undecided);
}

#[test]
fn an_auxiliary_at_zero_decides_nothing() {
    let mut lent = lists(4, 5, 2);
    let answer = SOUND.decode(
        &one_check(4),
        Settings::new(256, 0, 1, 0),
        &[9_000; 4],
        lent.lend(),
    );
    assert_eq!(lent.values[4], 0);
    assert_eq!((answer.number, lent.word), (0, vec![0; 4]));
}

#[test]
fn the_penalty_acts_on_auxiliaries() {
    let value = |ratio| {
        let mut lent = lists(4, 5, 2);
        SOUND.decode(
            &one_check(4),
            Settings::new(512, ratio, 2, 0),
            &[30_000, -30_000, 500, 3],
            lent.lend(),
        );
        (lent.sums[4], lent.values[4])
    };
    for ratio in [0, 512, 1_023] {
        let (sum, value) = value(ratio);
        let expected = SOUND.nearest(i128::from(-256 * sum), 2_048 - i128::from(ratio));
        assert_eq!(i128::from(value), limited(expected, 16_384));
        assert_ne!(value, 0);
    }
}

#[test]
fn the_reflector_refuses_the_lowest_cost_everywhere() {
    assert_eq!(SOUND.reflect(&[i16::MIN], &[0], &mut [0]), 13);
    assert_eq!(SOUND.reflect(&[i16::MIN], &[1], &mut [0]), 13);
    let mut result = [0; 2];
    assert_eq!(SOUND.reflect(&[-32_767, 32_767], &[1, 1], &mut result), 0);
    assert_eq!(result, [32_767, -32_767]);
}

#[test]
fn sums_of_words() {
    let (word, other) = ([0, 0, 1, 1], [0, 1, 0, 1]);
    let mut sum = [77; 6];
    assert_eq!(SOUND.add_words(&word, &other, &mut sum), 0);
    assert_eq!(sum, [0, 1, 1, 0, 77, 77]);
    let mut exact = [77; 4];
    assert_eq!(SOUND.add_words(&other, &other, &mut exact), 0);
    assert_eq!(exact, [0; 4]);
}

#[test]
fn reflections_compose() {
    let costs = [-32_767, -1, 0, 32_767];
    let (word, other) = ([0, 0, 1, 1], [0, 1, 0, 1]);
    let [mut first, mut second, mut once] = [[77; 4]; 3];
    assert_eq!(SOUND.reflect(&costs, &word, &mut first), 0);
    assert_eq!(first, [-32_767, -1, 0, -32_767]);
    assert_eq!(SOUND.reflect(&first, &other, &mut second), 0);
    assert_eq!(second, [-32_767, 1, 0, 32_767]);
    assert_eq!(SOUND.reflect(&costs, &[0, 1, 1, 0], &mut once), 0);
    assert_eq!(once, second);
}

#[test]
fn the_extension_of_a_sum() {
    // The auxiliary 5 has the sum of the bits 0 and 1, then 6 that of the bits 2 and 3.
    let five = one_check(5);
    let point_of = |word: &[u8]| {
        let mut point = [77; 7];
        assert_eq!(SOUND.extend(&five, word, &mut point).number, 0);
        point
    };
    let (point, other) = (point_of(&[1, 0, 1, 0, 0]), point_of(&[1, 1, 1, 0, 1]));
    assert_eq!(point, [1, 0, 1, 0, 0, 1, 1]);
    assert_eq!(other, [1, 1, 1, 0, 1, 0, 1]);
    let mut sum = [77; 7];
    assert_eq!(SOUND.add_words(&point, &other, &mut sum), 0);
    assert_eq!(sum, [0, 1, 0, 0, 1, 1, 0]);
    assert_eq!(point_of(&[0, 1, 0, 0, 1]), sum);
}

fn cost(setting: Channel, sample: f32) -> i16 {
    let mut costs = [77];
    assert_eq!(SOUND.front(setting, &[sample], &mut costs), 0);
    costs[0]
}

#[test]
fn gaussian_costs() {
    let one = |sample| cost(Channel::Gaussian(1.0), sample);
    assert_eq!(one(0.0), 0);
    assert_eq!(one(-0.0), 0);
    assert_eq!(one(0.499_999_97), 0);
    assert_eq!(one(1.499_999_9), 1);
    assert_eq!(one(-1.5), -2);
    assert_eq!(one(2.5), 3);
    assert_eq!(one(32_766.5), 32_767);
    assert_eq!(one(-32_767.496), -32_767);
    assert_eq!(one(8_388_608.0), 32_767);
    assert_eq!(one(f32::MAX), 32_767);
    assert_eq!(one(f32::MIN), -32_767);
    assert_eq!(one(f32::from_bits(1)), 0);
    assert_eq!(cost(Channel::Gaussian(f32::MAX), f32::MAX), 32_767);
    assert_eq!(cost(Channel::Gaussian(f32::MAX), f32::MIN), -32_767);
    let smallest = f32::from_bits(1);
    assert_eq!(cost(Channel::Gaussian(f32::MAX), smallest), 0);
    assert_eq!(cost(Channel::Gaussian(smallest), f32::MAX), 0);
}

#[test]
fn the_product_is_rounded_first() {
    // The exact product lies below one half; the f32 product is one half.
    let (sample, scale) = (1.0f32 / 50.0, 25.0f32);
    assert!(f64::from(sample) * f64::from(scale) < 0.5);
    assert_eq!(cost(Channel::Gaussian(scale), sample), 1);
}

#[test]
fn hard_costs() {
    let weight = |weight, sample| cost(Channel::Hard(weight), sample);
    assert_eq!(weight(2.5, 0.1), 3);
    assert_eq!(weight(2.5, -0.1), -3);
    assert_eq!(weight(2.5, 0.0), 0);
    assert_eq!(weight(2.5, -0.0), 0);
    assert_eq!(weight(0.4, 1.0), 0);
    assert_eq!(weight(f32::MAX, -f32::from_bits(1)), -32_767);
}

#[test]
fn erasing_costs() {
    let at = |floor, sample| cost(Channel::erasing(floor, 7.0), sample);
    assert_eq!(at(1.0, 0.99), 0);
    assert_eq!(at(1.0, -0.99), 0);
    assert_eq!(at(1.0, 1.0), 7);
    assert_eq!(at(1.0, -1.0), -7);
    assert_eq!(at(0.0, f32::from_bits(1)), 7);
    assert_eq!(at(-0.0, -f32::from_bits(1)), -7);
    assert_eq!(at(0.0, -0.0), 0);
}

#[test]
fn channel_settings_out_of_range() {
    let number = |setting| SOUND.front(setting, &[], &mut []);
    for bad in [0.0, -0.0, -1.0, f32::NAN, -f32::NAN, f32::INFINITY] {
        assert_eq!(number(Channel::Gaussian(bad)), 11);
        assert_eq!(number(Channel::Hard(bad)), 11);
        assert_eq!(number(Channel::erasing(1.0, bad)), 11);
    }
    for bad in [-1.0, -f32::from_bits(1), f32::NAN, f32::INFINITY] {
        assert_eq!(number(Channel::erasing(bad, 1.0)), 11);
    }
}
