//! Counts of what the compared cases met, so that no comparison is empty.

use crate::case::{Case, DecodeCase, GroupCase};
use crate::degrees::{degrees_of, kinds_at, kinds_with_two_bits};
use crate::encoder_events::{encoder_events, OF_FRAMES, OF_WORDS};
use crate::families::seed;
use crate::group_events::{group_events, of_groups, pairs_against_groups};
use crate::limit_events::{limit_end_events, limit_events, OF_LIMITS};
use crate::outcome::Outcome;
use crate::run_events::{end_events, iteration_events, Largest, OF_RUNS};
use crate::text_events::{pairs_against_texts, text_events, OF_TEXTS};
use crate::two_bit_events::{two_bit_events, OF_TWO_BITS};
use reference::cause::Cause;
use reference::iteration::Problem;
use reference::run::{run, MOST_ITERATIONS};
use reference::SOUND;
use std::collections::{BTreeMap, BTreeSet};

/// Every entry with all the numbers it can give; of the frame program the kinds of
/// lines, and nothing for the end without one.
const KINDS: [(&str, &str); 19] = [
    ("read", "0,1,2,3,4,5,6,7,8,9"),
    ("split", "0,1,2,3,4,5,6,7,8,9,10"),
    ("gaussian", "0,10,11,14"),
    ("hard", "0,10,11,14"),
    ("erasing", "0,10,11,14"),
    ("reflect", "0,10,12,13,15"),
    ("test", "0,1,2,3,4,5,6,7,8,9,12,15,17"),
    ("extend", "0,1,2,3,4,5,6,7,8,9,10,12,15,17"),
    ("add_words", "0,10,12,15"),
    ("decode", "0,1,2,3,4,5,6,7,8,9,10,11,12,13,16,17"),
    ("decode_group", "0,1,2,3,4,5,6,7,8,9,10,11,12,21"),
    ("import", "0,3,4,6,7,8,10,18,19"),
    ("export", "0,1,2,3,4,5,6,7,8,9,10"),
    ("export_size", "0,1,2,3,4,5,6,7,8,9"),
    ("message_length", "0,1,2,3,4,5,6,7,8,9,20"),
    ("encode", "0,1,2,3,4,5,6,7,8,9,10,12,15,20"),
    ("encode_frames", "0,1,2,3,4,5,6,7,8,9,10,12,15,20"),
    ("read_message", "0,1,2,3,4,5,6,7,8,9,10,12,15,17,20"),
    (
        "frames",
        ",W,U,N,R 1,R 2,R 3,R 4,R 5,R 6,R 8,R 10,R 11,R 13",
    ),
];

/// What must happen in some run, alone and in a group, accepted import, accepted export, accepted
/// encoding and frame.
const EVENTS: [(&str, &[&str]); 11] = [
    ("decode", &OF_RUNS),
    ("decode", &OF_LIMITS),
    ("decode", &OF_TWO_BITS),
    ("decode_group", &OF_RUNS),
    ("decode_group", &OF_LIMITS),
    ("decode_group", &OF_TWO_BITS),
    ("import", &OF_TEXTS),
    (
        "export",
        &["text in a longer list", "text in a list of its length"],
    ),
    ("encode", &OF_WORDS),
    ("encode_frames", &OF_FRAMES),
    ("frames", &[LONGEST_FRAME]),
];

/// A line whose k is the most that can be.
const LONGEST_FRAME: &str = "frame of 4,000 iterations";

/// Runs of more rows than this are not watched.
const MOST_WATCHED: usize = 200_000;

#[derive(Default)]
pub struct Tally {
    counts: BTreeMap<String, u64>,
    pub cases: u64,
    largest: Option<Largest>,
}

impl Tally {
    fn count(&mut self, what: impl Into<String>) {
        *self.counts.entry(what.into()).or_default() += 1;
    }

    /// Counts a number or line, also with the degrees that its case shows.
    fn count_kind(&mut self, kind: String, degrees: &[usize]) {
        for what in kinds_at(&kind, degrees) {
            self.count(what);
        }
        self.count(kind);
    }

    pub fn of(&self, what: &str) -> u64 {
        self.counts.get(what).copied().unwrap_or(0)
    }

    /// Counts a case with its outcome.
    pub fn add(&mut self, case: &Case, outcome: &Outcome) {
        self.cases += 1;
        let degrees = degrees_of(case);
        match outcome.fields.first() {
            Some((_, number)) => self.count_kind(format!("{} {number}", case.entry()), &degrees),
            None => self.add_lines(&outcome.text, &degrees),
        }
        match case {
            Case::Decode(case) => self.add_run(case, outcome),
            Case::DecodeGroup(case) => self.add_group(case, outcome),
            Case::Import { text, room } => self.add_import(text, *room, outcome),
            Case::Export { room, .. } if is_accepted(outcome) => {
                let exact = outcome.fields[1].1 == *room;
                let longer = "text in a longer list";
                self.count(if exact {
                    "text in a list of its length"
                } else {
                    longer
                });
            }
            Case::Encode { .. } | Case::EncodeFrames { .. } if is_accepted(outcome) => {
                self.add_events(encoder_events(case));
            }
            _ => (),
        }
    }

    /// Counts what an accepted text has, and which causes meet in a refused one.
    fn add_import(&mut self, text: &[u8], room: usize, outcome: &Outcome) {
        if is_accepted(outcome) {
            self.add_events(text_events(text));
            let exact = outcome.fields[1].1 == room;
            let longer = "records in a longer list";
            self.count(if exact {
                "records in a list of their length"
            } else {
                longer
            });
        }
        let causes = SOUND.causes_of_import(text, room);
        self.count_pairs("import", &causes, outcome);
    }

    /// Counts which two causes meet, where one of them is told.
    fn count_pairs(&mut self, entry: &str, causes: &[Cause], outcome: &Outcome) {
        for pair in pairs_against(entry) {
            let told = |number: &u32| outcome.fields[0].1 == *number as usize;
            let holds = |number: &u32| causes.iter().any(|&cause| cause as u32 == *number);
            if pair.iter().all(holds) && pair.iter().any(told) {
                self.count(meeting(entry, pair));
            }
        }
    }

    /// Counts which causes meet in a group, and of an accepted one what it has and what happens in
    /// each of its runs.
    fn add_group(&mut self, case: &GroupCase, outcome: &Outcome) {
        let (code, costs) = (&case.code, &case.costs);
        let causes = SOUND.causes_of_group(code, case.settings, case.frames, costs, case.room);
        self.count_pairs("decode_group", &causes, outcome);
        if !is_accepted(outcome) {
            return;
        }
        let code = SOUND.read_code(code).expect("an accepted code");
        for event in group_events(case, &code, outcome) {
            self.count(event);
        }
        for frame in 0..case.frames {
            let outcome = outcome.of_frame(&code, frame);
            self.add_run(&case.frame(frame, code.bits), &outcome);
        }
    }

    fn add_events(&mut self, events: impl IntoIterator<Item = (&'static str, bool)>) {
        for (event, _) in events.into_iter().filter(|&(_, happened)| happened) {
            self.count(event);
        }
    }

    fn add_lines(&mut self, text: &[u8], degrees: &[usize]) {
        let text = String::from_utf8_lossy(text);
        if text.is_empty() {
            self.count_kind("frames ".into(), degrees);
        }
        for line in text.lines() {
            let kind = if line.starts_with('R') {
                line
            } else {
                &line[..1]
            };
            self.count_kind(format!("frames {kind}"), degrees);
            if line.split(' ').nth(1) == Some(&MOST_ITERATIONS.to_string()) {
                self.count(LONGEST_FRAME);
            }
        }
    }

    fn add_run(&mut self, case: &DecodeCase, outcome: &Outcome) {
        let [number, k] = [0, 2].map(|field| outcome.fields[field].1);
        if ![0, 16, 17].contains(&number) {
            return;
        }
        let code = SOUND.read_code(&case.code).expect("an accepted code");
        let split = SOUND.split_code(&code);
        let problem = Problem::new(SOUND, split, case.settings, &case.costs);
        self.add_events(end_events(&problem, outcome));
        self.add_events(limit_end_events(&problem, outcome));
        self.add_events(two_bit_events(&code, outcome));
        let largest = self.largest.get_or_insert_default();
        largest.add(&problem, outcome);
        if 4 * code.triples() * k <= MOST_WATCHED {
            self.watch(&problem);
        }
    }

    /// Runs the reference again and counts what happens in its iterations.
    fn watch(&mut self, problem: &Problem) {
        let mut met: BTreeSet<&str> = BTreeSet::new();
        run(problem, &mut |iterate, totals| {
            let events = iteration_events(problem, iterate, totals);
            let events = events.chain(limit_events(problem, iterate));
            let happened = events.filter(|&(_, happens)| happens);
            met.extend(happened.map(|(event, _)| event));
        });
        met.into_iter().for_each(|event| self.count(event));
    }

    /// Fails unless each number, line and event of these entries was met at least
    /// this often, and nothing else.
    pub fn assert_complete(&self, entries: &[&str], least: u64) {
        let expected: Vec<String> = entries.iter().flat_map(|entry| of_entry(entry)).collect();
        for what in &expected {
            let count = self.of(what);
            assert!(count >= least, "{what:?} was met {count} times only");
        }
        for what in self.counts.keys() {
            assert!(expected.contains(what), "{what:?} was not to be met");
        }
    }

    /// The counts in one line, and of runs the largest sizes.
    pub fn summary(&self) -> String {
        let counts = self.counts.iter();
        let mut parts: Vec<String> = counts
            .map(|(what, count)| format!("{what}: {count}"))
            .collect();
        parts.extend(self.largest.map(|largest| largest.to_string()));
        let parts = parts.join(", ");
        format!("seed {}, {} cases; {parts}", seed(), self.cases)
    }
}

/// What an entry is to meet.
fn of_entry(entry: &str) -> Vec<String> {
    let mut all = KINDS.iter();
    let (_, kinds) = all.find(|(other, _)| *other == entry).expect("an entry");
    let events = EVENTS.iter().filter(|(other, _)| *other == entry);
    let events = events.flat_map(|(_, events)| events.iter());
    let kinds = kinds.split(',').map(|kind| format!("{entry} {kind}"));
    let kinds = kinds.flat_map(|kind| {
        let others = kinds_with_two_bits(&kind);
        std::iter::once(kind).chain(others)
    });
    let pairs = pairs_against(entry).into_iter();
    let pairs = pairs.map(|pair| meeting(entry, pair));
    let events = events.map(|event| event.to_string());
    let of_groups = of_groups().into_iter().filter(|_| entry == "decode_group");
    kinds.chain(pairs).chain(events).chain(of_groups).collect()
}

/// The causes that must meet in some call of an entry.
fn pairs_against(entry: &str) -> Vec<[u32; 2]> {
    match entry {
        "import" => pairs_against_texts(),
        "decode_group" => pairs_against_groups(),
        _ => Vec::new(),
    }
}

fn meeting(entry: &str, [first, second]: [u32; 2]) -> String {
    format!("{entry} {first} with {second}")
}

fn is_accepted(outcome: &Outcome) -> bool {
    outcome.fields[0].1 == 0
}
