//! What the tally counts of groups of frames.

use crate::case::GroupCase;
use crate::codes::{group_room, Code};
use crate::outcome::Outcome;
use crate::pairs::{pairs_of, pairs_with};
use crate::two_bits::has_two_bits;
use interface::MOST_FRAMES;

/// What must happen in some accepted group of up to four frames, and in some of more.
const OF_EACH: [&str; 33] = [
    "frame with a word",
    "frame with a false cost",
    "undecided frame",
    "frame off the code",
    "word beside a false cost",
    "word beside an undecided frame",
    "word beside a frame off the code",
    "every frame with a false cost",
    "false cost before other frames",
    "false cost after other frames",
    "equal frames",
    "frames that stop apart",
    "first frame stops first",
    "last frame stops first",
    "settled frame beside one that is not",
    "stop after two iterations beside 100 or more",
    "every frame to iteration 4,000",
    "bit in one check",
    "bit in 9 to 31 checks",
    "bit in 32 checks or more",
    "bit in all of 32 checks or more",
    "check of two bits",
    "checks of different degrees",
    "ratio 0",
    "ratio 1,023",
    "tolerance 0",
    "largest tolerance",
    "limit 1",
    "limit 2",
    "largest weight with a cost of the largest size",
    "lists of the lengths needed",
    "longer list of each kind",
    "longer work list",
];

const SIZES: [&str; 2] = ["up to four frames", "more than four"];

/// What must happen in some accepted group.
const OF_GROUPS: [&str; 7] = [
    "first four frames stop before the others",
    "first four frames stop after the others",
    "five frames or more stop all apart",
    "a word, a false cost, an undecided frame and one off the code",
    "eight frames of 4,096 bits",
    "eight frames of 8,192 triples",
    "eight frames of 2,048 checks",
];

/// The causes against a group of which every two can meet, 13 as that of a frame.
const AGAINST_GROUPS: [u32; 8] = [9, 7, 8, 11, 21, 12, 10, 13];

/// Causes that end the reading, and those that need no code and can so meet them.
const OF_READING: [u32; 6] = [1, 2, 3, 4, 5, 6];
const WITHOUT_CODE: [u32; 3] = [11, 21, 13];

/// Every two causes against a group that can meet.
pub fn pairs_against_groups() -> Vec<[u32; 2]> {
    let mut pairs = pairs_of(&AGAINST_GROUPS);
    pairs.extend(pairs_with(&OF_READING, &WITHOUT_CODE));
    pairs
}

fn in_group(event: &str, more: bool) -> String {
    format!("{event}, {}", SIZES[usize::from(more)])
}

fn of_size(frames: usize) -> String {
    format!("frames in a group: {frames}")
}

fn false_at(frame: usize) -> String {
    format!("false cost in frame {frame}")
}

/// All that must happen.
pub fn of_groups() -> Vec<String> {
    let mut all: Vec<String> = OF_GROUPS.map(String::from).to_vec();
    for event in OF_EACH {
        all.extend([false, true].map(|more| in_group(event, more)));
    }
    all.extend((1..=MOST_FRAMES).map(of_size));
    all.extend((0..MOST_FRAMES).map(false_at));
    all
}

/// A frame's answer.
#[derive(Clone, Copy)]
struct Answer {
    number: usize,
    k: usize,
    settled: bool,
}

/// What happened in an accepted group.
pub fn group_events(case: &GroupCase, code: &Code, outcome: &Outcome) -> Vec<String> {
    let fields = outcome.fields[1..].chunks_exact(4).take(case.frames);
    let answers = fields.map(|fields| Answer {
        number: fields[0].1,
        k: fields[2].1,
        settled: fields[3].1 == 1,
    });
    let answers: Vec<Answer> = answers.collect();
    let mut met = vec![of_size(case.frames)];
    let is_false = |&frame: &usize| answers[frame].number == 13;
    met.extend((0..case.frames).filter(is_false).map(false_at));
    let of_each = number_events(&answers)
        .into_iter()
        .chain(stop_events(case, code, &answers))
        .chain(code_events(code))
        .chain(setting_events(case))
        .chain(list_events(case, code));
    let of_each = OF_EACH.into_iter().zip(of_each);
    let happened = of_each.filter(|&(_, happened)| happened);
    met.extend(happened.map(|(event, _)| in_group(event, case.frames > 4)));
    let whole = OF_GROUPS.into_iter().zip(whole_events(code, &answers));
    let whole = whole.filter(|&(_, happened)| happened);
    met.extend(whole.map(|(event, _)| event.to_string()));
    met
}

fn number_events(answers: &[Answer]) -> [bool; 10] {
    let has = |number| answers.iter().any(|answer| answer.number == number);
    let first = answers.first().is_some_and(|answer| answer.number == 13);
    let last = answers.last().is_some_and(|answer| answer.number == 13);
    let others = answers.iter().any(|answer| answer.number != 13);
    [
        has(0),
        has(13),
        has(16),
        has(17),
        has(0) && has(13),
        has(0) && has(16),
        has(0) && has(17),
        !others,
        first && others,
        last && others,
    ]
}

/// Whether this frame ran and stopped before all others that ran, of which there are some.
fn stops_first(answers: &[Answer], frame: usize) -> bool {
    let stop = answers[frame].k;
    let others = (0..answers.len()).filter(|&other| other != frame);
    let others = others.map(|other| answers[other].k).filter(|&k| k > 0);
    stop > 0 && others.min().is_some_and(|k| stop < k)
}

fn stop_events(case: &GroupCase, code: &Code, answers: &[Answer]) -> [bool; 7] {
    let ran = || answers.iter().filter(|answer| answer.k > 0);
    let (least, most) = (ran().map(|a| a.k).min(), ran().map(|a| a.k).max());
    let frames: Vec<&[i16]> = case.costs.chunks_exact(code.bits).collect();
    let equal = |frame: usize| frames[..frame].contains(&frames[frame]);
    [
        (0..frames.len()).any(equal),
        least < most,
        stops_first(answers, 0),
        stops_first(answers, answers.len() - 1),
        ran().any(|answer| answer.settled) && ran().any(|answer| !answer.settled),
        least == Some(2) && most >= Some(100),
        answers
            .iter()
            .all(|answer| answer.k == 4_000 && !answer.settled),
    ]
}

fn code_events(code: &Code) -> [bool; 6] {
    let mut counts = vec![0; code.bits];
    for &bit in code.checks.iter().flatten() {
        counts[bit] += 1;
    }
    let has = |least, most| counts.iter().any(|count| (least..=most).contains(count));
    let checks = code.checks.len();
    let degree = code.checks[0].len();
    [
        has(1, 1),
        has(9, 31),
        has(32, usize::MAX),
        checks >= 32 && has(checks, checks),
        has_two_bits(code),
        code.checks.iter().any(|check| check.len() != degree),
    ]
}

fn setting_events(case: &GroupCase) -> [bool; 7] {
    let settings = case.settings;
    let largest = case.costs.iter().any(|cost| cost.abs_diff(0) == 32_767);
    [
        settings.ratio == 0,
        settings.ratio == 1_023,
        settings.tolerance == 0,
        settings.tolerance == u32::MAX,
        settings.limit == 1,
        settings.limit == 2,
        settings.weight == 65_535 && largest,
    ]
}

fn list_events(case: &GroupCase, code: &Code) -> [bool; 3] {
    let needed = group_room(code, case.frames);
    let longer = case.room.iter().zip(&needed).map(|(room, due)| room > due);
    let longer: Vec<bool> = longer.collect();
    [
        case.room == needed,
        longer[..6].iter().all(|&longer| longer),
        longer[6],
    ]
}

fn whole_events(code: &Code, answers: &[Answer]) -> [bool; 7] {
    let stops = |answers: &[Answer]| {
        let stops = answers.iter().map(|answer| answer.k);
        stops.clone().min().zip(stops.max())
    };
    let (first, others) = answers.split_at(answers.len().min(4));
    let halves = stops(first).zip(stops(others));
    let mut all: Vec<usize> = answers.iter().map(|answer| answer.k).collect();
    all.sort_unstable();
    let apart = all.windows(2).all(|pair| pair[0] < pair[1]) && all[0] > 0;
    let has = |number| answers.iter().any(|answer| answer.number == number);
    let eight = answers.len() == MOST_FRAMES;
    [
        halves.is_some_and(|((least, most), (next, _))| least > 0 && most < next),
        halves.is_some_and(|((least, _), (next, most))| next > 0 && most < least),
        answers.len() >= 5 && apart,
        [0, 13, 16, 17].into_iter().all(has),
        eight && code.bits == 4_096,
        eight && code.triples() == 8_192,
        eight && code.checks.len() == 2_048,
    ]
}
