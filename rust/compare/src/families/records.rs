//! Code records for the reader and the splitter, and damage for every entry
//! that takes them.

use super::Family;
use crate::case::Case;
use crate::codes::{
    code_of, code_within, one_check, records, small_code, tiny_code, training_code, Code,
};
use crate::damage::{apply, damages_of};
use crate::draft::{Draft, Entry, ENTRIES};
use crate::random::Random;

pub fn families() -> Vec<Family> {
    vec![
        Family::listed("records cut at every byte", every_cut),
        Family::listed("records at the edges", edges),
        Family::listed("one check of every degree", every_degree),
        Family::listed("pairs of damages", damage_pairs),
        Family::listed("records of the largest codes", largest),
        Family::random("damaged tiny codes", 6_000, damaged_tiny),
        Family::random("damaged small codes", 3_000, damaged_small),
        Family::random("split of small codes", 500, split_small),
        Family::random("split of large codes", 20, split_large),
        Family::random("records of any bytes", 500, any_bytes),
    ]
}

fn exact_split(code: &Code) -> Case {
    Case::Split {
        code: records(code),
        room: [3 * code.triples(), code.variables()],
    }
}

/// A call of every entry with these records, else fit for this code.
pub fn calls(code: &Code, records: &[u8]) -> Vec<Case> {
    let mut draft = Draft::of(&mut Random::new(0), code.clone());
    draft.records = records.to_vec();
    draft.settings.limit = 2;
    ENTRIES.map(|entry| draft.case(entry)).to_vec()
}

fn every_cut() -> Vec<Case> {
    let mut random = Random::new(1);
    let mut cases = Vec::new();
    for code in [
        one_check(3),
        tiny_code(&mut random),
        small_code(&mut random),
        training_code(),
    ] {
        let records = records(&code);
        for length in 0..=records.len() {
            cases.extend(calls(&code, &records[..length]));
        }
    }
    cases
}

/// A header with these numbers, and one sound check.
fn with_header(bits: u16, checks: u16) -> Vec<u8> {
    let mut code = records(&one_check(3));
    code[2..4].copy_from_slice(&bits.to_be_bytes());
    code[4..6].copy_from_slice(&checks.to_be_bytes());
    code
}

fn edges() -> Vec<Case> {
    let mut codes = Vec::new();
    for size in [
        0, 1, 2, 3, 4, 255, 256, 2_047, 2_048, 2_049, 4_095, 4_096, 4_097, 65_535,
    ] {
        for code in [with_header(size, 1), with_header(3, size)] {
            for length in 2..=code.len() {
                codes.push(code[..length].to_vec());
            }
        }
    }
    for first in 0..=255 {
        codes.push(vec![first]);
        codes.push(vec![first, 0x48]);
        codes.push(vec![0x4C, first]);
        let mut code = records(&one_check(33));
        code[8] = first;
        codes.push(code);
    }
    let of_each = |code: Vec<u8>| calls(&one_check(3), &code);
    codes.into_iter().flat_map(of_each).collect()
}

fn every_degree() -> Vec<Case> {
    let mut cases = Vec::new();
    for degree in 3..=34 {
        let code = one_check(degree);
        let (triples, variables) = (3 * (code.bits - 2), 2 * code.bits - 3);
        for room in [
            [triples, variables],
            [triples - 1, variables],
            [triples, variables - 1],
            [triples + 1, variables + 1],
            [0, variables],
            [triples, 0],
        ] {
            let code = records(&code);
            cases.push(Case::Split { code, room });
        }
    }
    cases
}

fn damage_pairs() -> Vec<Case> {
    damage_pairs_of(2, small_code)
}

/// Every pair of damages that an entry can meet, on several codes.
pub fn damage_pairs_of(seed: u64, code: fn(&mut Random) -> Code) -> Vec<Case> {
    let mut random = Random::new(seed);
    let mut cases = Vec::new();
    for entry in ENTRIES {
        for first in damages_of(entry) {
            for second in damages_of(entry) {
                let mut draft = Draft::random(&mut random, code);
                apply(&mut random, &mut draft, entry, first);
                apply(&mut random, &mut draft, entry, second);
                cases.push(draft.case(entry));
            }
        }
    }
    cases
}

/// Codes at the limits of bits, checks, degrees and triples, and just beyond.
fn largest() -> Vec<Case> {
    let mut random = Random::new(3);
    let mut cases = Vec::new();
    for (bits, checks, triples) in [
        (4_096, 2_048, 8_192),
        (4_096, 2_048, 8_193),
        (4_096, 2_047, 8_192),
        (4_096, 128, 3_840),
        (4_095, 300, 8_192),
        (3, 2_048, 2_048),
        (7, 1_639, 8_192),
        (7, 1_639, 8_195),
        (32, 274, 8_192),
        (32, 274, 8_220),
    ] {
        let code = code_of(&mut random, bits, checks, triples);
        cases.extend(about(&code));
    }
    cases
}

/// Calls with the records of a code, with a byte after them, with a bit more, and cut.
pub fn about(code: &Code) -> Vec<Case> {
    let whole = records(code);
    let after = [&whole[..], b"L"].concat();
    let mut unused = whole.clone();
    unused[2..4].copy_from_slice(&(code.bits as u16 + 1).to_be_bytes());
    let all = [&whole[..], &after, &unused, &whole[..whole.len() - 1]];
    let of_each = |records: &[u8]| calls(code, records);
    all.into_iter().flat_map(of_each).collect()
}

/// A call of any entry, with up to three damages.
pub fn damaged(random: &mut Random, code: Code) -> Case {
    let entry = random.pick(&ENTRIES);
    damaged_call(random, entry, code)
}

/// The same of one entry.
pub fn damaged_call(random: &mut Random, entry: Entry, code: Code) -> Case {
    let mut draft = Draft::of(random, code);
    if random.once_in(2) {
        draft.lengthen(random);
    }
    for _ in 0..random.below(4) {
        let damage = random.pick(&damages_of(entry));
        apply(random, &mut draft, entry, damage);
    }
    draft.case(entry)
}

fn damaged_tiny(random: &mut Random) -> Case {
    let code = tiny_code(random);
    damaged(random, code)
}

fn damaged_small(random: &mut Random) -> Case {
    let code = small_code(random);
    damaged(random, code)
}

fn split_small(random: &mut Random) -> Case {
    let mut draft = Draft::random(random, small_code);
    draft.lengthen(random);
    draft.case(Entry::Split)
}

fn split_large(random: &mut Random) -> Case {
    exact_split(&code_within(random, 4_096, 2_048, 8_192))
}

/// Bytes that begin like records but go on at random, from a few values.
fn any_bytes(random: &mut Random) -> Case {
    let mut code = vec![b'L', b'H', 0, 3, 0, random.between(1, 3) as u8];
    for _ in 0..random.below(40) {
        code.push(random.pick(&[0, 0, 1, 2, 3, b'L', b'C']));
    }
    code.truncate(random.between(0, code.len()));
    Case::Read { code }
}
