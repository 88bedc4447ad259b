//! Builders for records and lent lists.
#![allow(dead_code)]

pub use interface::*;
pub use reference::SOUND;

pub fn two(number: usize) -> [u8; 2] {
    (number as u16).to_be_bytes()
}

pub fn header(bits: usize, checks: usize) -> Vec<u8> {
    [[0x4C, 0x48], two(bits), two(checks)].concat()
}

pub fn check(indices: &[usize]) -> Vec<u8> {
    let mut bytes = vec![0x4C, 0x43, indices.len() as u8];
    for &index in indices {
        bytes.extend(two(index));
    }
    bytes
}

pub fn code(bits: usize, checks: &[&[usize]]) -> Vec<u8> {
    let mut bytes = header(bits, checks.len());
    for indices in checks {
        bytes.extend(check(indices));
    }
    bytes
}

/// One check over all of so many bits.
pub fn one_check(bits: usize) -> Vec<u8> {
    let all: Vec<usize> = (0..bits).collect();
    code(bits, &[&all])
}

/// The code of the numbers by hand: three bits and their check.
pub fn small() -> Vec<u8> {
    one_check(3)
}

/// Lists of a decoder call, of exactly the needed lengths, all entries 77 before it.
pub fn lists(bits: usize, variables: usize, triples: usize) -> OwnLists {
    OwnLists::exact(bits, variables, triples, 77)
}

/// Decodes with the small code into these lists.
pub fn decode_into(lent: &mut OwnLists, settings: Settings, costs: &[i16]) -> DecodeAnswer {
    SOUND.decode(&small(), settings, costs, lent.lend())
}

/// Decodes with the small code; the answer and the lists afterwards.
pub fn decode_small(settings: Settings, costs: [i16; 3]) -> (DecodeAnswer, OwnLists) {
    let mut lent = lists(3, 3, 1);
    (decode_into(&mut lent, settings, &costs), lent)
}

pub fn refusal(number: u32) -> DecodeAnswer {
    DecodeAnswer {
        number,
        ..DecodeAnswer::default()
    }
}
