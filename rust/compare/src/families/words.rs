//! The codeword test, the extension, the reflector and the sum of words.

use super::Family;
use crate::case::Case;
use crate::codes::{code_within, small_or_training_code, tiny_code, Code};
use crate::draft::{Draft, Entry};
use crate::random::Random;

pub fn families() -> Vec<Family> {
    vec![
        Family::listed("every word of a tiny code", every_word),
        Family::random("test and extension, tiny codes", 2_000, tiny_word),
        Family::random("test and extension, small codes", 1_000, small_word),
        Family::random("test and extension, large codes", 10, large_word),
        Family::listed("reflector at the edges", reflector_edges),
        Family::random("reflector", 2_000, |random| reflected(random, short)),
        Family::random("reflector, many costs", 100, |random| {
            reflected(random, long)
        }),
        Family::listed("sums at the edges", sum_edges),
        Family::listed("sums with one wrong entry", sums_with_a_wrong_entry),
        Family::listed("sums of every length up to 300", sums_of_every_length),
        Family::random("sums of words", 2_000, |random| added(random, short)),
        Family::random("sums of long words", 100, |random| added(random, long)),
    ]
}

fn word_entry(random: &mut Random) -> Entry {
    random.pick(&[Entry::Test, Entry::Extend])
}

fn every_word() -> Vec<Case> {
    every_word_of(4, tiny_code)
}

/// Test and extension of every word of some codes.
pub fn every_word_of(seed: u64, code: fn(&mut Random) -> Code) -> Vec<Case> {
    let mut random = Random::new(seed);
    let mut cases = Vec::new();
    for _ in 0..8 {
        let mut draft = Draft::random(&mut random, code);
        for number in 0..1 << draft.code.bits {
            let bits = 0..draft.code.bits;
            draft.word = bits.map(|bit| (number >> bit & 1) as u8).collect();
            cases.push(draft.case(Entry::Test));
            cases.push(draft.case(Entry::Extend));
        }
    }
    cases
}

pub fn word_of(random: &mut Random, code: fn(&mut Random) -> Code) -> Case {
    let mut draft = Draft::random(random, code);
    draft.lengthen(random);
    draft.case(word_entry(random))
}

fn tiny_word(random: &mut Random) -> Case {
    word_of(random, tiny_code)
}

fn small_word(random: &mut Random) -> Case {
    word_of(random, small_or_training_code)
}

fn large_word(random: &mut Random) -> Case {
    let draft = Draft::random(random, |random| code_within(random, 4_096, 1_000, 8_192));
    draft.case(word_entry(random))
}

fn reflector_edges() -> Vec<Case> {
    let mut cases = Vec::new();
    for cost in [i16::MIN, -32_767, -1, 0, 1, 32_767] {
        for entry in [0, 1, 2, 255] {
            for (costs, word, room) in [(1, 1, 1), (2, 2, 1), (1, 1, 0), (2, 2, 3), (1, 2, 0)] {
                cases.push(Case::Reflect {
                    costs: vec![cost; costs],
                    word: vec![entry; word],
                    room,
                });
            }
        }
    }
    for room in 0..3 {
        cases.push(Case::Reflect {
            costs: vec![],
            word: vec![],
            room,
        });
    }
    cases
}

fn short(random: &mut Random) -> usize {
    random.below(70)
}

fn long(random: &mut Random) -> usize {
    random.between(1_000, 5_000)
}

/// Costs and a word of a length that is drawn.
fn reflected(random: &mut Random, length: fn(&mut Random) -> usize) -> Case {
    let length = length(random);
    let mut costs: Vec<i16> = (0..length).map(|_| random.any() as i16).collect();
    costs
        .iter_mut()
        .for_each(|cost| *cost = (*cost).max(-32_767));
    let mut word = random.word(length);
    let mut room = length + random.below(3);
    for _ in 0..random.below(3) {
        match random.below(4) {
            0 => word.push(0),
            1 => room = random.below(length + 1),
            2 if length > 0 => word[random.below(length)] = random.between(2, 255) as u8,
            3 if length > 0 => costs[random.below(length)] = i16::MIN,
            _ => (),
        }
    }
    Case::Reflect { costs, word, room }
}

/// Lengths that agree or do not, entries 0 or 1 or others, lists too short or not, each
/// with each.
fn sum_edges() -> Vec<Case> {
    const ENTRIES: [u8; 4] = [0, 1, 2, 255];
    let mut cases = Vec::new();
    for (one, two) in ENTRIES
        .iter()
        .flat_map(|&one| ENTRIES.map(|two| (one, two)))
    {
        for (word, other) in (0..4).flat_map(|word| (0..4).map(move |other| (word, other))) {
            for room in 0..5 {
                cases.push(Case::AddWords {
                    word: vec![one; word],
                    other: vec![two; other],
                    room,
                });
            }
        }
    }
    cases
}

/// An entry 2 or 255 at each place of either word.
fn sums_with_a_wrong_entry() -> Vec<Case> {
    let mut random = Random::new(15);
    let mut cases = Vec::new();
    for length in [1, 2, 7, 16, 17, 33, 64, 67, 130] {
        for place in 0..length {
            for (wrong, entry) in [(0, 2), (0, 255), (1, 2), (1, 255)] {
                let mut words = [random.word(length), random.word(length)];
                words[wrong][place] = entry;
                let [word, other] = words;
                let room = length;
                cases.push(Case::AddWords { word, other, room });
            }
        }
    }
    cases
}

fn sums_of_every_length() -> Vec<Case> {
    let mut random = Random::new(16);
    let case = |length| Case::AddWords {
        word: random.word(length),
        other: random.word(length),
        room: length + length % 3,
    };
    (0..=300).map(case).collect()
}

/// Two words of a length that is drawn.
fn added(random: &mut Random, length: fn(&mut Random) -> usize) -> Case {
    let length = length(random);
    let mut words = [random.word(length), random.word(length)];
    let mut room = length + random.below(3);
    for _ in 0..random.below(3) {
        let word = &mut words[random.below(2)];
        match random.below(4) {
            0 => word.push(0),
            1 => drop(word.pop()),
            2 => room = random.below(length + 1),
            _ => {
                let place = random.below(length + 1);
                if let Some(entry) = word.get_mut(place) {
                    *entry = random.between(2, 255) as u8;
                }
            }
        }
    }
    let [word, other] = words;
    Case::AddWords { word, other, room }
}
