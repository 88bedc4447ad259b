//! Alist texts for the import: a few small ones, changed in every place.

use super::Family;
use crate::alist::{text_of, Plan};
use crate::alist_damage::ODD_BYTES;
use crate::case::Case;
use crate::codes::{one_check, tiny_code, Code};
use crate::random::Random;

pub fn families() -> Vec<Family> {
    vec![
        Family::listed("texts by hand", by_hand),
        Family::listed("room for the records", rooms),
        Family::listed("texts cut at every byte", every_cut),
        Family::listed("texts damaged at every byte", every_damage),
        Family::listed("every byte between two numbers", every_byte),
        Family::listed("every number of another value", every_number),
        Family::listed("long numbers and separators", long_words),
    ]
}

/// An import with exactly the room that these lists need.
fn exact(plan: &Plan, text: Vec<u8>) -> Case {
    Case::Import {
        text,
        room: plan.record_bytes(),
    }
}

/// Five bits and two checks, with a column and a row to fill.
fn two_checks() -> Plan {
    Plan::of(&Code {
        bits: 5,
        checks: vec![vec![0, 1, 2, 3], vec![1, 3, 4]],
    })
}

/// Small plans with their texts.
fn small_texts() -> Vec<(Plan, Vec<u8>)> {
    let mut random = Random::new(7);
    let plans = [
        Plan::of(&one_check(3)),
        two_checks(),
        Plan::of(&tiny_code(&mut random)),
        Plan::of(&one_check(10)),
    ];
    let with_text = |plan: Plan| (plan.clone(), text_of(&plan.lines()));
    plans.map(with_text).to_vec()
}

/// Every beginning, with and without a separator before it, and every end.
fn every_cut() -> Vec<Case> {
    let mut cases = Vec::new();
    for (plan, text) in small_texts() {
        for length in 0..=text.len() {
            cases.push(exact(&plan, text[..length].to_vec()));
            cases.push(exact(&plan, [b"\n", &text[..length]].concat()));
            cases.push(exact(&plan, text[length..].to_vec()));
        }
    }
    cases
}

/// Each byte left out, replaced and with another before it.
fn every_damage() -> Vec<Case> {
    let mut cases = Vec::new();
    for (plan, text) in small_texts() {
        for place in 0..text.len() {
            let (before, after) = (&text[..place], &text[place + 1..]);
            cases.push(exact(&plan, [before, after].concat()));
            for byte in ODD_BYTES {
                cases.push(exact(&plan, [before, &[byte], after].concat()));
                cases.push(exact(&plan, [before, &[byte], &text[place..]].concat()));
            }
        }
    }
    cases
}

/// Every byte as a separator, among separators, within a number, first and last.
fn every_byte() -> Vec<Case> {
    let plan = two_checks();
    let text = text_of(&plan.lines());
    let mut cases = Vec::new();
    for byte in 0..=255 {
        let one = [byte];
        for parts in [
            [b"5", &one[..], &text[2..]],
            [b"5 ", &one[..], &text[1..]],
            [b"", &one[..], &text[..]],
            [&text[..], &one[..], b""],
            [b"00", &one[..], &text[..]],
            [&text[..text.len() - 1], &one[..], b""],
        ] {
            cases.push(exact(&plan, parts.concat()));
        }
    }
    cases
}

/// Numbers that a narrow type takes for this one, and numbers at the edges.
fn others(number: usize) -> Vec<String> {
    let number = number as u128;
    let mut others: Vec<String> = [0, 1, 2, 3, 4, 9, 10, 255, 256, 65_534, 65_535]
        .iter()
        .chain(&[65_536, 65_537, 99_999, 100_000, 655_350, 655_360])
        .map(|other: &u128| other.to_string())
        .collect();
    for width in [8, 16, 31, 32, 64] {
        others.push((number + (1 << width)).to_string());
    }
    for zeros in [1, 4, 5, 20, 70, 1_000] {
        others.push(format!("{}{number}", "0".repeat(zeros)));
    }
    others
}

/// Every number of a text in turn, the others as they were.
fn every_number() -> Vec<Case> {
    let mut cases = Vec::new();
    for plan in [Plan::of(&one_check(3)), two_checks()] {
        let numbers = plan.numbers();
        for place in 0..numbers.len() {
            for other in others(numbers[place]) {
                let mut words: Vec<String> = numbers.iter().map(usize::to_string).collect();
                words[place] = other;
                cases.push(exact(&plan, words.join(" ").into()));
            }
        }
    }
    cases
}

/// Numbers and separators of more bytes than 16 bits count, and a number that is 3
/// in any number of bits up to 64.
fn long_words() -> Vec<Case> {
    const LONG: usize = 70_000;
    let plan = Plan::of(&one_check(3));
    let text = String::from_utf8(text_of(&plan.lines())).expect("digits and separators");
    let rest = &text[1..];
    let texts = [
        format!("{}3{rest}", "0".repeat(LONG)),
        format!("{}3{rest}", "9".repeat(LONG)),
        format!("1{}3{rest}", "0".repeat(64)),
        format!("{}{text}", " ".repeat(LONG)),
        format!("3{}{rest}", "\n".repeat(LONG)),
        format!("{text}{}", " ".repeat(LONG)),
        format!("{text}{}0", " ".repeat(LONG)),
        " \n".repeat(LONG),
    ];
    let cases = texts.map(|text| exact(&plan, text.into()));
    cases.to_vec()
}

/// Maxima of 0 and others, degrees, places twice, indices too high, and sizes whose
/// count of numbers is small in 32 bits; each with room and without.
fn by_hand() -> Vec<Case> {
    let mut cases = Vec::new();
    for text in include_str!("texts.txt").lines() {
        for room in [0, 5, 6, 15, 100, text.len()] {
            let text = text.as_bytes().to_vec();
            cases.push(Case::Import { text, room });
        }
    }
    cases
}

fn rooms() -> Vec<Case> {
    let mut cases = Vec::new();
    for (plan, text) in small_texts() {
        for room in (0..plan.record_bytes() + 3).chain([text.len(), 10_000]) {
            let text = text.clone();
            cases.push(Case::Import { text, room });
        }
    }
    cases
}
