//! Groups of frames of the reference alone: every cause and every event is met, and frames are runs
//! by themselves.

use compare::comparison::met;
use compare::families::groupings;
use compare::groupings::assert_groupings;
use compare::outcome::grouped;
use reference::SOUND;

#[test]
fn every_cause_is_met() {
    let tally = met(|case| grouped(&SOUND, case), groupings());
    println!("{}", tally.summary());
    tally.assert_complete(&["decode_group"], 3);
}

#[test]
fn groups_of_the_reference() {
    assert_groupings(&SOUND);
}
