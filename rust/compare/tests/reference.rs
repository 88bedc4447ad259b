//! What the reference alone must have: reflection, chains of reflections, encodings, and
//! points that are exactly the codewords' points.

use compare::chains::assert_chains;
use compare::codes::{tiny_code, Code};
use compare::encodings::assert_encodings;
use compare::random::Random;
use compare::reflections::assert_reflects;
use compare::two_bits::tiny_two_bit_code;
use reference::iteration::{SIGNS, UNIT};
use reference::splitting::{Split, BLANK};
use reference::SOUND;

#[test]
fn the_reference_reflects() {
    assert_reflects(&SOUND, &SOUND);
}

#[test]
fn chains_of_the_reference() {
    assert_chains(&SOUND);
}

#[test]
fn encodings_of_the_reference() {
    assert_encodings(&SOUND);
}

/// Whether all four sums of each triple are at most U at the centred values; a blank's is -U.
fn meets_system(split: &Split, point: &[u8]) -> bool {
    let centred = |item: usize| match item {
        BLANK => -UNIT,
        variable => (2 * i64::from(point[variable]) - 1) * UNIT,
    };
    split.triples.iter().all(|triple| {
        let values = triple.map(centred);
        let sum = |signs: [i64; 3]| (0..3).map(|i| signs[i] * values[i]).sum::<i64>();
        SIGNS.iter().all(|&signs| sum(signs) <= UNIT)
    })
}

fn digits(number: u32, length: usize) -> Vec<u8> {
    (0..length)
        .map(|place| (number >> place & 1) as u8)
        .collect()
}

#[test]
fn points_that_meet_the_system_are_those_of_codewords() {
    check_points(tiny_code);
}

#[test]
fn the_same_with_checks_of_two_bits() {
    check_points(tiny_two_bit_code);
}

/// Over all points of some codes.
fn check_points(make: fn(&mut Random) -> Code) {
    let mut random = Random::new(8);
    let (mut codewords, mut others) = (0, 0);
    for _ in 0..200 {
        let code = make(&mut random);
        let split = SOUND.split_code(&code);
        if split.variables() > 14 {
            continue;
        }
        for number in 0..1 << split.variables() {
            let point = digits(number, split.variables());
            let word = &point[..code.bits];
            let is_point = SOUND.first_odd_check(&code, word).is_none()
                && SOUND.point_of(&split, word) == point;
            assert_eq!(meets_system(&split, &point), is_point);
            codewords += u32::from(is_point);
            others += u32::from(!is_point);
        }
    }
    assert!(codewords > 500 && others > 5_000);
}
