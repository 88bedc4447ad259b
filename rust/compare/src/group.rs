//! Frames of a group, and room for what is written of them.

use crate::case::{exact_group, Case, GroupCase};
use crate::codes::{group_room, Code};
use crate::codewords::Codewords;
use crate::draft::{random_costs, wild_costs};
use crate::random::Random;
use interface::{Settings, MOST_FRAMES};
use reference::SOUND;

#[derive(Clone, Debug)]
pub struct Group {
    pub frames: usize,
    /// The costs of as many frames, one behind the other.
    pub costs: Vec<i16>,
    /// Room for triples, counts, sums, values, rows, word and work.
    pub room: [usize; 7],
}

impl Group {
    /// Random frames of a code, one in twenty with a false cost, and lists of exactly the lengths
    /// needed. What is drawn later does not depend on them.
    pub fn random(random: &Random, code: &Code, codewords: &Codewords) -> Group {
        let mut random = random.clone();
        let frames = random.between(1, MOST_FRAMES);
        let mut costs = Vec::new();
        for _ in 0..frames {
            let codeword = codewords.random(&mut random);
            let mut frame = random_costs(&mut random, &codeword);
            spoil(&mut random, &mut frame);
            costs.extend(frame);
        }
        Group {
            frames,
            costs,
            room: group_room(code, frames),
        }
    }

    pub fn case(&self, code: Vec<u8>, settings: Settings) -> GroupCase {
        GroupCase {
            code,
            settings,
            frames: self.frames,
            costs: self.costs.clone(),
            room: self.room,
        }
    }
}

/// Makes a cost false, once in twenty times.
fn spoil(random: &mut Random, costs: &mut [i16]) {
    if random.once_in(20) {
        costs[random.below(costs.len())] = i16::MIN;
    }
}

/// Another frame than one with these costs, or an equal one; at times with a false cost.
fn other_frame(random: &mut Random, costs: &[i16]) -> Vec<i16> {
    let bits = costs.len();
    let mut other = costs.to_vec();
    match random.below(9) {
        0 => (),
        1 => other.fill(0),
        2 => other.iter_mut().for_each(|cost| *cost = -*cost),
        3 => other.iter_mut().for_each(|cost| *cost /= 16),
        4 => other.rotate_left(random.below(bits)),
        5 => other = wild_costs(random, bits, 3),
        6 => other = wild_costs(random, bits, 32_767),
        _ => other[random.below(bits)] = wild_costs(random, 1, 32_767)[0],
    }
    spoil(random, &mut other);
    other
}

/// A group of so many frames, at any place one with these costs, in lists that may be longer than
/// needed.
pub fn among_others(
    random: &mut Random,
    code: &Code,
    settings: Settings,
    costs: &[i16],
    frames: usize,
) -> Case {
    let mut all: Vec<Vec<i16>> = Vec::new();
    all.resize_with(frames, || other_frame(random, costs));
    all[random.below(frames)] = costs.to_vec();
    let mut group = exact_group(code, settings, &all);
    if random.once_in(2) {
        lengthen(random, &mut group);
    }
    Case::DecodeGroup(group)
}

/// The same with the frame of a call of the decoder.
pub fn around(random: &mut Random, call: Case, frames: usize) -> Case {
    match call {
        Case::Decode(run) => {
            let code = SOUND.read_code(&run.code).expect("a sound code");
            among_others(random, &code, run.settings, &run.costs, frames)
        }
        other => other,
    }
}

/// Lends lists longer than needed: each by some entries, or at times by as much as more frames
/// would need.
pub fn lengthen(random: &mut Random, group: &mut GroupCase) {
    let times = random.pick(&[1, 1, 1, 2, MOST_FRAMES]);
    for room in &mut group.room {
        *room = times * *room + random.below(4);
    }
}
