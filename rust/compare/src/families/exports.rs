//! Code records for the export and for its size, besides those that every entry
//! that takes records gets.

use super::Family;
use crate::case::Case;
use crate::codes::{
    code_of, code_within, one_check, records, small_code, text_bytes, tiny_code, Code,
};
use crate::draft::{Draft, Entry};
use crate::random::Random;

pub fn families() -> Vec<Family> {
    vec![
        Family::listed("room for the text", rooms),
        Family::listed("sizes of one digit more", digits),
        Family::random("exports of tiny codes", 600, tiny),
        Family::random("exports of small codes", 400, small),
        Family::listed("exports about the most triples", most_triples),
        Family::random("exports of large codes", 3, large),
        Family::listed("a long text", long),
    ]
}

fn with_room(code: &Code, room: usize) -> Case {
    let code = records(code);
    Case::Export { code, room }
}

fn rooms() -> Vec<Case> {
    let mut random = Random::new(11);
    let mut cases = Vec::new();
    for code in [one_check(3), one_check(10), tiny_code(&mut random)] {
        for room in (0..text_bytes(&code) + 3).chain([10_000]) {
            cases.push(with_room(&code, room));
        }
    }
    cases
}

/// Codes with as many bits, checks, and bits or checks in one list as have a digit
/// less, or one more.
fn digits() -> Vec<Case> {
    let mut random = Random::new(12);
    let mut cases = Vec::new();
    for (bits, checks, triples) in [
        (9, 9, 20),
        (10, 9, 9),
        (9, 10, 70),
        (10, 10, 80),
        (11, 2, 18),
        (99, 99, 400),
        (100, 99, 99),
        (3, 100, 100),
        (100, 101, 500),
        (999, 500, 2_000),
        (1_000, 999, 4_000),
        (1_001, 1_000, 1_001),
        (3, 1_000, 1_000),
    ] {
        let code = code_of(&mut random, bits, checks, triples);
        let needed = text_bytes(&code);
        for room in [needed - 1, needed, needed + 1] {
            cases.push(with_room(&code, room));
        }
        let code = records(&code);
        cases.push(Case::ExportSize { code });
    }
    cases
}

/// An export with room for it, mostly, or its size.
pub fn export_of(random: &mut Random, code: Code) -> Case {
    let mut draft = Draft::of(random, code);
    draft.text_room = match random.below(6) {
        0 => draft.text_room - 1,
        1 => random.below(draft.text_room),
        2 => draft.text_room + random.between(1, 9),
        _ => draft.text_room,
    };
    draft.case(random.pick(&[Entry::Export, Entry::ExportSize]))
}

fn tiny(random: &mut Random) -> Case {
    let code = tiny_code(random);
    export_of(random, code)
}

fn small(random: &mut Random) -> Case {
    let code = small_code(random);
    export_of(random, code)
}

fn most_triples() -> Vec<Case> {
    let mut random = Random::new(15);
    let cases = (0..80).map(|_| about_most_triples(&mut random));
    cases.collect()
}

fn about_most_triples(random: &mut Random) -> Case {
    let bits = random.between(32, 50);
    let triples = random.between(8_191, 8_196);
    let code = code_of(random, bits, 280, triples);
    export_of(random, code)
}

fn large(random: &mut Random) -> Case {
    let code = code_within(random, 4_096, 2_048, 8_192);
    export_of(random, code)
}

/// A bit in every check, so that every column is long.
fn long() -> Vec<Case> {
    let checks = (0..300).map(|check| vec![0, 1 + 2 * check, 2 + 2 * check]);
    let code = Code {
        bits: 601,
        checks: checks.collect(),
    };
    let needed = text_bytes(&code);
    let size = Case::ExportSize {
        code: records(&code),
    };
    vec![with_room(&code, needed), with_room(&code, needed - 1), size]
}
