//! The compiled library against the reference.

use compare::chains::assert_chains;
use compare::comparison::compare;
use compare::encodings::assert_encodings;
use compare::families::{calls, conversions, encodings, groupings, Effort};
use compare::groupings::assert_groupings;
use compare::outcome::{called, converted, encoded, grouped};
use compare::reflections::assert_reflects;
use compare::round_trips::assert_round_trips;
use widagbe::Widagbe;

const ENTRIES: [&str; 10] = [
    "read",
    "split",
    "gaussian",
    "hard",
    "erasing",
    "reflect",
    "test",
    "extend",
    "add_words",
    "decode",
];

const CONVERSIONS: [&str; 3] = ["import", "export", "export_size"];

const ENCODER: [&str; 4] = ["message_length", "encode", "encode_frames", "read_message"];

#[test]
fn the_library_equals_the_reference() {
    let tally = compare(|case| called(&Widagbe, case), calls(), Effort::Full).unwrap();
    println!("{}", tally.summary());
    tally.assert_complete(&ENTRIES, 20);
}

#[test]
fn groups_equal_the_reference() {
    let tally = compare(|case| grouped(&Widagbe, case), groupings(), Effort::Full).unwrap();
    println!("{}", tally.summary());
    tally.assert_complete(&["decode_group"], 20);
}

#[test]
fn groups_of_the_library() {
    assert_groupings(&Widagbe);
}

#[test]
fn import_and_export_equal_the_reference() {
    let families = conversions();
    let tally = compare(|case| converted(&Widagbe, case), families, Effort::Full).unwrap();
    println!("{}", tally.summary());
    tally.assert_complete(&CONVERSIONS, 20);
}

#[test]
fn the_encoder_equals_the_reference() {
    let tally = compare(|case| encoded(&Widagbe, case), encodings(), Effort::Full).unwrap();
    println!("{}", tally.summary());
    tally.assert_complete(&ENCODER, 20);
}

#[test]
fn encodings_of_the_library() {
    assert_encodings(&Widagbe);
}

#[test]
fn the_library_reflects() {
    assert_reflects(&Widagbe, &Widagbe);
}

#[test]
fn chains_of_the_library() {
    assert_chains(&Widagbe);
}

#[test]
fn round_trips_of_the_library() {
    assert_round_trips(&Widagbe);
}
