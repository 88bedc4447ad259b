//! The rivals against the reference: written apart. An eighth of the random cases, since
//! nobody links them.

use compare::comparison::compare;
use compare::families::{calls, conversions, encodings, Effort};
use compare::outcome::{converted, decoded, encoded};
use compare::reflections::assert_reflects;
use compare::round_trips::assert_round_trips;
use interface::Decoder;
use reference::SOUND;
use rivals::{Packed, Plain, Tuned, Vectors};

fn assert_equals_the_reference(decoder: &dyn Decoder) {
    let tally = compare(|case| decoded(decoder, case), calls(), Effort::Quick).unwrap();
    println!("{}", tally.summary());
    tally.assert_complete(&["decode"], 3);
}

#[test]
fn plain_equals_the_reference() {
    assert_equals_the_reference(&Plain);
}

#[test]
fn tuned_equals_the_reference() {
    assert_equals_the_reference(&Tuned);
}

#[test]
fn the_rivals_reflect() {
    assert_reflects(&Plain, &SOUND);
    assert_reflects(&Tuned, &SOUND);
}

#[test]
fn vectors_equals_the_reference() {
    let families = calls().into_iter().chain(conversions()).collect();
    let tally = compare(|case| converted(&Vectors, case), families, Effort::Quick).unwrap();
    println!("{}", tally.summary());
    tally.assert_complete(&["import", "export", "export_size"], 3);
}

#[test]
fn round_trips_of_vectors() {
    assert_round_trips(&Vectors);
}

#[test]
fn packed_equals_the_reference() {
    let tally = compare(|case| encoded(&Packed, case), encodings(), Effort::Full).unwrap();
    println!("{}", tally.summary());
    let entries = ["message_length", "encode", "encode_frames", "read_message"];
    tally.assert_complete(&entries, 20);
}
