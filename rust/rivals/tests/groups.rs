//! Groups of frames of the rivals against the reference: on every family of groups, and where
//! rows outgrow floats.

use compare::case::Case;
use compare::codes::Code;
use compare::comparison::compare;
use compare::families::{groupings, Effort};
use compare::group::among_others;
use compare::outcome::grouped;
use compare::random::Random;
use compare::strained::{strained_code, straining_costs};
use interface::{Grouping, Settings, MOST_FRAMES};
use reference::SOUND;
use rivals::{Plain, Tuned};

fn assert_equals_the_reference(grouping: &dyn Grouping) {
    let tally = compare(|case| grouped(grouping, case), groupings(), Effort::Full).unwrap();
    println!("{}", tally.summary());
    tally.assert_complete(&["decode_group"], 20);
}

#[test]
fn plain_groups_equal_the_reference() {
    assert_equals_the_reference(&Plain);
}

#[test]
fn tuned_groups_equal_the_reference() {
    assert_equals_the_reference(&Tuned);
}

/// A code with a check under strain, none of whose bits has more checks than the lanes of the
/// tuned rival take.
fn strained(random: &mut Random) -> Code {
    strained_code([0; 3].map(|_| random.between(4, 6)))
}

/// Up to eight frames about one that strains it, with settings that the lanes take too.
fn strained_group(random: &mut Random, code: &Code) -> Case {
    let (ratio, limit) = (random.pick(&[1, 149, 511]), random.pick(&[1_500, 4_000]));
    let costs = straining_costs(random, code, 30_000);
    let frames = random.between(3, MOST_FRAMES);
    let settings = Settings::new(65_535, ratio, limit, 0);
    among_others(random, code, settings, &costs, frames)
}

#[test]
fn tuned_groups_whose_rows_outgrow_floats() {
    let mut outgrown = 0;
    for seed in 0..60 {
        let random = &mut Random::new(seed);
        let code = strained(random);
        let case = strained_group(random, &code);
        let expected = grouped(&SOUND, &case).expect("a group");
        let found = grouped(&Tuned, &case).expect("a group");
        assert_eq!(found.difference(&expected), None, "seed {seed}");
        let rows = expected.first("rows", 3 * 4 * code.triples());
        outgrown += u32::from(rows.iter().any(|&s| s > 1 << 24));
    }
    assert!(outgrown >= 20);
}
