//! Import and export of the reference alone: every cause is met, and round trips end
//! where they began.

use compare::alist::{text_of, Plan};
use compare::codes::{records, small_code};
use compare::comparison::met;
use compare::families::conversions;
use compare::outcome::converted;
use compare::random::Random;
use compare::round_trips::assert_round_trips;
use interface::Alist;
use reference::SOUND;

#[test]
fn every_cause_is_met() {
    let tally = met(|case| converted(&SOUND, case), conversions());
    println!("{}", tally.summary());
    tally.assert_complete(&["import", "export", "export_size"], 10);
}

#[test]
fn round_trips_of_the_reference() {
    assert_round_trips(&SOUND);
}

/// The harness writes texts too, apart from the reference.
#[test]
fn the_reference_exports_what_the_harness_writes() {
    let mut random = Random::new(13);
    for _ in 0..300 {
        let code = small_code(&mut random);
        let mut text = vec![0; SOUND.export_size(&records(&code)).bytes];
        SOUND.export(&records(&code), &mut text);
        assert_eq!(text, text_of(&Plan::of(&code).lines()));
    }
}
