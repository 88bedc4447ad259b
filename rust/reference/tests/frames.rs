//! The frame program: its refusals and where each one comes.

mod common;

use common::*;

const SETTINGS: [u8; 12] = [0x4C, 0x53, 1, 0, 0, 0, 0, 2, 0, 0, 0, 0];

fn frame(costs: &[i16]) -> Vec<u8> {
    let mut bytes = vec![0x4C, 0x46];
    bytes.extend(costs.iter().flat_map(|cost| cost.to_be_bytes()));
    bytes
}

fn after_small(parts: &[&[u8]]) -> String {
    SOUND.frames(&[small(), parts.concat()].concat())
}

#[test]
fn no_frame_no_output() {
    assert_eq!(after_small(&[&SETTINGS]), "");
}

#[test]
fn every_cut() {
    let whole = [small(), SETTINGS.to_vec(), frame(&[1, 2, 3])].concat();
    for length in 0..whole.len() {
        let expected = if length == 27 { "" } else { "R 1\n" };
        assert_eq!(SOUND.frames(&whole[..length]), expected, "cut at {length}");
    }
}

#[test]
fn sizes_before_room() {
    assert_eq!(SOUND.frames(&header(513, 0)), "R 3\n");
    assert_eq!(SOUND.frames(&header(513, 1)), "R 10\n");
    assert_eq!(SOUND.frames(&header(512, 1)), "R 1\n");
}

#[test]
fn a_check_is_judged_whole_before_its_room() {
    let wide: Vec<usize> = (0..32).collect();
    let mut checks: Vec<&[usize]> = vec![&wide; 34];
    checks.push(&wide[..6]);
    let full = code(32, &checks);
    let with_count = |count: usize, last: &[u8]| {
        let mut bytes = full.clone();
        bytes[4..6].copy_from_slice(&two(count));
        bytes.extend(last);
        SOUND.frames(&bytes)
    };
    assert_eq!(with_count(35, &[]), "R 1\n");
    assert_eq!(with_count(35, &SETTINGS), "");
    assert_eq!(with_count(36, &check(&[0, 1, 2])), "R 10\n");
    assert_eq!(with_count(36, &check(&[0, 1, 32])), "R 5\n");
    assert_eq!(with_count(36, &check(&[0, 1])), "R 10\n");
    assert_eq!(with_count(36, &check(&[1, 1])), "R 6\n");
    assert_eq!(with_count(36, &check(&[0])), "R 4\n");
    assert_eq!(with_count(36, &check(&[0, 1, 2])[..8]), "R 1\n");
    assert_eq!(with_count(37, &check(&[0, 1, 2])), "R 10\n");
}

#[test]
fn an_unused_bit_comes_right_after_the_last_check() {
    let unused = code(4, &[&[0, 1, 2]]);
    assert_eq!(SOUND.frames(&unused), "R 8\n");
    assert_eq!(SOUND.frames(&[unused, vec![0; 9]].concat()), "R 8\n");
}

#[test]
fn settings_are_judged_one_by_one() {
    assert_eq!(after_small(&[]), "R 1\n");
    assert_eq!(after_small(&[&[0x4C]]), "R 1\n");
    assert_eq!(after_small(&[&[0x4C, 0x46]]), "R 2\n");
    assert_eq!(after_small(&[&[0x4C, 0x53, 0, 0]]), "R 11\n");
    assert_eq!(after_small(&[&[0x4C, 0x53, 0, 1, 4, 0]]), "R 11\n");
    assert_eq!(after_small(&[&[0x4C, 0x53, 0, 1, 4]]), "R 1\n");
    assert_eq!(after_small(&[&[0x4C, 0x53, 0, 1, 3, 255, 0, 0]]), "R 11\n");
    for (limit, expected) in [(1_000, "R 1\n"), (4_000, "R 1\n"), (4_001, "R 11\n")] {
        let fields = [[0x4C, 0x53], [0, 1], [3, 255], two(limit)].concat();
        assert_eq!(after_small(&[&fields]), expected);
    }
    assert_eq!(after_small(&[&SETTINGS[..11]]), "R 1\n");
}

#[test]
fn the_tolerance_has_its_high_byte_first() {
    let with = |tolerance: u32| {
        let mut settings = SETTINGS;
        settings[8..].copy_from_slice(&tolerance.to_be_bytes());
        after_small(&[&settings, &frame(&[0; 3])])
    };
    assert_eq!(with(0x3FFF_FFFF), "U 2 1 0\n");
    assert_eq!(with(0x4000_0000), "U 1 1 0\n");
}

#[test]
fn only_a_wrong_cost_lets_it_go_on() {
    let bad = frame(&[0, i16::MIN, 0]);
    let good = frame(&[20_000; 3]);
    let line = "W 2 0 000\n";
    assert_eq!(
        after_small(&[&SETTINGS, &good, &bad, &good]),
        format!("{line}R 13\n{line}")
    );
    assert_eq!(
        after_small(&[&SETTINGS, &good, &[0x4C], &good]),
        format!("{line}R 2\n")
    );
    assert_eq!(
        after_small(&[&SETTINGS, &good, &SETTINGS]),
        format!("{line}R 2\n")
    );
    assert_eq!(after_small(&[&SETTINGS, &bad[..7]]), "R 1\n");
    assert_eq!(
        after_small(&[&SETTINGS, &good, &[0x4C]]),
        format!("{line}R 1\n")
    );
}
