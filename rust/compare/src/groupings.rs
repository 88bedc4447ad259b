//! What groups of frames promise, on a library alone: each frame is a run by itself, and a codeword
//! of its own reflects it.

use crate::codes::{any_code, group_room, records, Code};
use crate::codewords::Codewords;
use crate::draft::{random_costs, random_settings};
use crate::lent::ensure;
use crate::random::Random;
use crate::reflection::{all_kinds_met, compare_runs, Kinds, Run};
use crate::seeds;
use crate::two_bits::has_two_bits;
use interface::{DecodeAnswer, GroupAnswer, Grouping, Library, OwnLists, Settings, MOST_FRAMES};
use reference::run::MOST_ITERATIONS;
use std::collections::BTreeMap;

/// The first seed, unless another is given.
pub const SEED: u64 = 0x4752_4F55;

/// What the lists hold before a call.
const FILL: u8 = 7;

/// What must happen in some group.
const EVENTS: [&str; 5] = [
    "false cost",
    "false costs alone",
    "frames that stop apart",
    "a word, a false cost, an undecided frame and one off the code",
    "4,000 iterations beside fewer",
];

/// How often each of these was met.
#[derive(Debug, Default)]
pub struct Met {
    /// Groups, by how many frames there are.
    sizes: BTreeMap<usize, u64>,
    events: BTreeMap<&'static str, u64>,
    /// Outcomes of frames that were reflected by a codeword that is not all 0.
    outcomes: Kinds,
}

/// Fails unless every group is as promised, with each size and each event often enough.
pub fn assert_groupings(library: &(impl Library + Grouping)) {
    let met = check_groupings(library, seeds::first(SEED)).unwrap();
    println!("{met:?}");
    assert!(met.sizes.keys().copied().eq(1..=MOST_FRAMES));
    assert!(met.sizes.values().all(|&count| count >= 100));
    let often = |event| met.events.get(event).is_some_and(|&count| count >= 10);
    assert!(EVENTS.into_iter().all(often));
    assert!(all_kinds_met(&met.outcomes, 100));
}

/// Checks groups of random codes, from a seed on; what was met, or a failure.
pub fn check_groupings(library: &(impl Library + Grouping), first: u64) -> Result<Met, String> {
    let mut met = Met::default();
    for seed in first..first + 2_000 {
        let mut random = Random::new(seed);
        let group = Group::random(library, &mut random);
        let checked = group.check(&mut random, &mut met);
        checked.map_err(|what| format!("seed {seed:#x}: {what}"))?;
    }
    Ok(met)
}

/// Frames of a code, some with a false cost.
struct Group<'a, L> {
    library: &'a L,
    code: Code,
    records: Vec<u8>,
    settings: Settings,
    frames: Vec<Vec<i16>>,
}

fn is_false(costs: &[i16]) -> bool {
    costs.contains(&i16::MIN)
}

impl<L: Library + Grouping> Group<'_, L> {
    fn random<'a>(library: &'a L, random: &mut Random) -> Group<'a, L> {
        let code = any_code(random);
        let codewords = Codewords::of(&code);
        let mut settings = random_settings(random);
        if random.once_in(20) {
            settings = Settings::new(64, 3, MOST_ITERATIONS as u32, 0);
        }
        let mut frames = Vec::new();
        let wrong = random.pick(&[1, 4, 8, 8, 8]);
        for _ in 0..random.between(1, MOST_FRAMES) {
            let codeword = codewords.random(random);
            let mut costs = random_costs(random, &codeword);
            match random.below(8) {
                0 => costs.fill(0),
                1 => costs = frames.last().cloned().unwrap_or(costs),
                _ => (),
            }
            if random.once_in(wrong) {
                costs[random.below(code.bits)] = i16::MIN;
            }
            frames.push(costs);
        }
        Group {
            library,
            records: records(&code),
            code,
            settings,
            frames,
        }
    }

    fn check(&self, random: &mut Random, met: &mut Met) -> Result<(), String> {
        let runs = self.runs(&self.frames)?;
        *met.sizes.entry(runs.len()).or_default() += 1;
        for (event, happens) in EVENTS.into_iter().zip(events(&runs)) {
            *met.events.entry(event).or_default() += u64::from(happens);
        }
        self.check_reflected(random, &runs, &mut met.outcomes)?;
        self.check_refusals(random)
    }

    /// Lists for so many frames.
    fn lists(&self, frames: usize) -> OwnLists {
        let Code { bits, .. } = self.code;
        let (variables, triples) = (self.code.variables(), self.code.triples());
        OwnLists::exact_group(frames, bits, variables, triples, FILL)
    }

    /// What a group leaves of each frame, which is what a run of it alone leaves. The lists have
    /// room for one frame more, which stays.
    fn runs(&self, frames: &[Vec<i16>]) -> Result<Vec<Run>, String> {
        let mut lists = self.lists(frames.len() + 1);
        let mut work = vec![-1; group_room(&self.code, frames.len())[6]];
        let answer = self.library.decode_group(
            &self.records,
            self.settings,
            frames.len(),
            &frames.concat(),
            lists.lend(),
            &mut work,
        );
        ensure(answer.number == 0, "a group is refused")?;
        let past = answer.frames[frames.len()..].iter();
        let zeros = past
            .copied()
            .all(|answer| answer == DecodeAnswer::default());
        ensure(zeros, "an answer past the frames")?;
        let mut split = self.lists(0);
        let (triples, counts) = (&mut split.triples, &mut split.counts);
        let split_number = self.library.split(&self.records, triples, counts);
        let equal = (&lists.triples, &lists.counts) == (&split.triples, &split.counts);
        ensure(split_number == 0 && equal, "triples or counts")?;
        let rest = self.part(&lists, frames.len(), &self.lists(1));
        ensure(rest == self.lists(1), "an entry past the frames changed")?;
        let mut runs = Vec::new();
        for (frame, costs) in frames.iter().enumerate() {
            let mut alone = self.lists(1);
            let due = self
                .library
                .decode(&self.records, self.settings, costs, alone.lend());
            let found = Run {
                answer: answer.frames[frame],
                lists: self.part(&lists, frame, &alone),
            };
            ensure(found.answer == due, "another answer than alone")?;
            ensure(found.lists == alone, "other lists than alone")?;
            runs.push(found);
        }
        Ok(runs)
    }

    /// A frame's parts, with the triples and counts of other lists.
    fn part(&self, lists: &OwnLists, frame: usize, others: &OwnLists) -> OwnLists {
        let (variables, rows) = (self.code.variables(), 4 * self.code.triples());
        let bits = self.code.bits;
        OwnLists {
            triples: others.triples.clone(),
            counts: others.counts.clone(),
            sums: lists.sums[frame * variables..][..variables].to_vec(),
            values: lists.values[frame * variables..][..variables].to_vec(),
            rows: lists.rows[frame * rows..][..rows].to_vec(),
            word: lists.word[frame * bits..][..bits].to_vec(),
        }
    }

    /// Reflects each frame by a codeword of its own; one with a false cost stays.
    fn check_reflected(
        &self,
        random: &mut Random,
        runs: &[Run],
        outcomes: &mut Kinds,
    ) -> Result<(), String> {
        let codewords = Codewords::of(&self.code);
        let mut reflected = self.frames.clone();
        let mut points = Vec::new();
        for (costs, result) in self.frames.iter().zip(&mut reflected) {
            let codeword = codewords.random(random);
            let mut point = vec![FILL; self.code.variables()];
            let extended = self.library.extend(&self.records, &codeword, &mut point);
            ensure(extended.number == 0, "the extension refuses")?;
            points.push(point);
            let number = self.library.reflect(costs, &codeword, result);
            let due = if is_false(costs) { 13 } else { 0 };
            ensure(number == due, "the reflector's number")?;
        }
        let others = self.runs(&reflected)?;
        for ((first, second), point) in runs.iter().zip(&others).zip(&points) {
            if first.answer.number == 13 {
                continue;
            }
            compare_runs(first, second, point)?;
            if point[..self.code.bits].contains(&1) {
                let kind = (first.answer.number, has_two_bits(&self.code));
                *outcomes.entry(kind).or_default() += 1;
            }
        }
        Ok(())
    }

    /// Fails unless a call is refused with this number and leaves every list.
    fn refused(
        &self,
        settings: Settings,
        frames: usize,
        costs: &[i16],
        room: [usize; 7],
        number: u32,
    ) -> Result<(), String> {
        let mut lists = OwnLists {
            triples: vec![FILL.into(); room[0]],
            counts: vec![FILL.into(); room[1]],
            sums: vec![FILL.into(); room[2]],
            values: vec![FILL.into(); room[3]],
            rows: vec![FILL.into(); room[4]],
            word: vec![FILL; room[5]],
        };
        let (before, mut work) = (lists.clone(), vec![-1; room[6]]);
        let answer = self.library.decode_group(
            &self.records,
            settings,
            frames,
            costs,
            lists.lend(),
            &mut work,
        );
        let due = GroupAnswer {
            number,
            ..GroupAnswer::default()
        };
        if answer != due {
            return Err(format!("number {} where {number} is due", answer.number));
        }
        let stays = lists == before && work.iter().all(|&entry| entry == -1);
        ensure(stays, "a refused group changed a list")
    }

    /// Checks that what does not go with the code is refused, whatever the costs are.
    fn check_refusals(&self, random: &mut Random) -> Result<(), String> {
        let frames = self.frames.len();
        let room = group_room(&self.code, frames);
        let costs = self.frames.concat();
        let mut settings = self.settings;
        settings.weight = 0;
        self.refused(settings, 0, &costs, room, 11)?;
        for other in [0, MOST_FRAMES + 1, usize::MAX] {
            self.refused(self.settings, other, &costs, room, 21)?;
        }
        self.refused(self.settings, frames, &costs[1..], room, 12)?;
        let one_more = [&costs[..], &[i16::MIN]].concat();
        self.refused(self.settings, frames, &one_more, room, 12)?;
        let mut short = room;
        short[random.below(7)] -= 1;
        self.refused(self.settings, frames, &costs, short, 10)
    }
}

/// Which of the events a group has.
fn events(runs: &[Run]) -> [bool; EVENTS.len()] {
    let has = |number| runs.iter().any(|run| run.answer.number == number);
    let stops = || runs.iter().map(|run| run.answer.k).filter(|&k| k > 0);
    let (least, most) = (stops().min(), stops().max());
    [
        has(13),
        runs.iter().all(|run| run.answer.number == 13),
        least < most,
        [0, 13, 16, 17].into_iter().all(has),
        least < most && most == Some(MOST_ITERATIONS as u32),
    ]
}
