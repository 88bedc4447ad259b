//! Groups of frames: false costs, numbers of frames, lists too short and longer, and causes that
//! meet.

use super::records::damaged_call;
use super::Family;
use crate::case::{exact_group, Case, GroupCase};
use crate::codes::{group_room, one_check, records, small_code, tiny_code, Code};
use crate::damage::{apply, Damage};
use crate::draft::{wild_costs, Draft, Entry};
use crate::group::lengthen;
use crate::random::Random;
use crate::two_bits::{path, tiny_two_bit_code};
use interface::{Settings, MOST_FRAMES};

pub fn families() -> Vec<Family> {
    vec![
        Family::listed("groups with false costs in every place", false_costs),
        Family::listed("numbers of frames", frame_counts),
        Family::listed("lists of groups at the edges", list_edges),
        Family::listed("pairs of causes against groups", cause_pairs),
        Family::random("damaged groups", 1_500, |random| {
            let code = tiny_code(random);
            damaged_call(random, Entry::DecodeGroup, code)
        }),
        Family::random("damaged groups, two bits", 500, |random| {
            let code = tiny_two_bit_code(random);
            damaged_call(random, Entry::DecodeGroup, code)
        }),
    ]
}

const SETTINGS: Settings = Settings::new(256, 0, 3, 0);

fn edge_codes(random: &mut Random) -> [Code; 4] {
    [one_check(3), path(4), tiny_code(random), small_code(random)]
}

/// So many frames, some of them with a false cost.
fn frames_with_false(
    random: &mut Random,
    bits: usize,
    frames: usize,
    is_false: impl Fn(usize) -> bool,
) -> Vec<Vec<i16>> {
    let mut all = Vec::new();
    for frame in 0..frames {
        let mut costs = wild_costs(random, bits, 20_000);
        if is_false(frame) {
            costs[random.below(bits)] = i16::MIN;
        }
        all.push(costs);
    }
    all
}

/// Every choice of frames that have a false cost, in groups of every size.
fn false_costs() -> Vec<Case> {
    let mut random = Random::new(34);
    let mut cases = Vec::new();
    for code in edge_codes(&mut random) {
        for frames in 1..=MOST_FRAMES {
            for chosen in 0..1usize << frames {
                let is_false = |frame: usize| chosen >> frame & 1 == 1;
                let costs = frames_with_false(&mut random, code.bits, frames, is_false);
                let mut group = exact_group(&code, SETTINGS, &costs);
                if random.once_in(4) {
                    lengthen(&mut random, &mut group);
                }
                cases.push(Case::DecodeGroup(group));
            }
        }
    }
    cases
}

/// Numbers of frames from 0 on and next to 8, and some that are such a number in fewer bits.
fn counts() -> Vec<usize> {
    let mut counts: Vec<usize> = (0..=11).collect();
    counts.extend([16, 255, 256, 257, 264, 65_536, 65_539]);
    counts.extend([1 << 32, (1 << 32) + 1, (1 << 32) + 8, 1 << 61, 1 << 63]);
    counts.extend([usize::MAX, usize::MAX - 7]);
    counts
}

/// Each with costs of several lengths and lists that are enough for eight frames or not, at times
/// with a setting out of its range.
fn frame_counts() -> Vec<Case> {
    let mut random = Random::new(35);
    let mut cases = Vec::new();
    for code in edge_codes(&mut random) {
        let bits = code.bits;
        let enough = group_room(&code, MOST_FRAMES);
        for frames in counts() {
            let in_fewer_bits = frames % 256 * bits;
            for length in [
                0,
                bits,
                in_fewer_bits,
                in_fewer_bits + 1,
                8 * bits,
                9 * bits,
            ] {
                for short in [None, Some(random.below(7))] {
                    let mut room = enough;
                    short.into_iter().for_each(|list| room[list] = 0);
                    let mut settings = SETTINGS;
                    settings.ratio = random.pick(&[0, 0, 0, 0, 0, 1_024]);
                    cases.push(Case::DecodeGroup(GroupCase {
                        code: records(&code),
                        settings,
                        frames,
                        costs: wild_costs(&mut random, length, 20_000),
                        room,
                    }));
                }
            }
        }
    }
    cases
}

/// Lengths for a list that needs so many entries for this many frames.
fn about(needed: usize, frames: usize) -> [usize; 6] {
    [
        0,
        needed - 1,
        needed - needed / frames,
        needed + 1,
        needed + 1_000,
        MOST_FRAMES * needed,
    ]
}

/// One list too short, by an entry or a frame, empty, or longer; with no false cost, with one, and
/// with one in each frame.
fn list_edges() -> Vec<Case> {
    let mut random = Random::new(36);
    let mut cases = Vec::new();
    for code in edge_codes(&mut random) {
        for frames in 1..=MOST_FRAMES {
            for wrong in [0, 1, frames] {
                let is_false = |frame| frame < wrong;
                let costs = frames_with_false(&mut random, code.bits, frames, is_false);
                let exact = exact_group(&code, SETTINGS, &costs);
                for (list, needed) in exact.room.into_iter().enumerate() {
                    cases.extend(about(needed, frames).map(|length| {
                        let mut group = exact.clone();
                        group.room[list] = length;
                        Case::DecodeGroup(group)
                    }));
                }
            }
        }
    }
    cases
}

/// Damages that bring the causes that can meet, each with each.
fn cause_pairs() -> Vec<Case> {
    const OF_READING: [Damage; 6] = [
        Damage::Cut,
        Damage::Mark,
        Damage::Size,
        Damage::Degree,
        Damage::HighIndex,
        Damage::Order,
    ];
    const OTHERS: [Damage; 8] = [
        Damage::Triples,
        Damage::Unused,
        Damage::After,
        Damage::Setting,
        Damage::Frames,
        Damage::CostsLength,
        Damage::LowestCost,
        Damage::Room,
    ];
    let mut random = Random::new(37);
    let mut cases = Vec::new();
    for first in OTHERS {
        for second in OF_READING.into_iter().chain(OTHERS) {
            for _ in 0..40 {
                let mut draft = Draft::random(&mut random, small_code);
                for damage in [first, second] {
                    apply(&mut random, &mut draft, Entry::DecodeGroup, damage);
                }
                cases.push(draft.case(Entry::DecodeGroup));
            }
        }
    }
    cases
}
