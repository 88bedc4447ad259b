//! Import and export: rounds in which each takes its turn at the same call.

use crate::places::{largest_code, regular};
use crate::refused::Refused;
use crate::texts::{written, Style};
use compare::alist::Plan;
use compare::codes::{records, training_code, Code};
use interface::{Alist, BytesAnswer};
use reference::SOUND;
use rivals::Vectors;
use std::time::Instant;

/// Rounds go on until there are so many, or so many seconds have passed.
const ROUNDS: usize = 500;
const SECONDS: f64 = 3.0;

#[derive(Clone, Copy, PartialEq, Eq)]
pub enum Call {
    Import,
    Export,
}

/// A call with the text or the records that it takes and what it is to answer.
pub struct Task {
    pub name: &'static str,
    pub call: Call,
    input: Vec<u8>,
    pub answer: BytesAnswer,
    /// Seconds that it may take.
    pub bar: Option<f64>,
}

impl Task {
    pub fn refused(refused: &Refused) -> Task {
        Task {
            name: refused.name,
            call: Call::Import,
            input: (refused.text)(),
            answer: BytesAnswer {
                number: refused.number,
                bytes: 0,
            },
            bar: Some(refused.bar),
        }
    }

    /// The bytes of the text.
    pub fn bytes(&self) -> usize {
        match self.call {
            Call::Import => self.input.len(),
            Call::Export => self.answer.bytes,
        }
    }

    /// The seconds that the call takes.
    fn timed(&self, name: &str, alist: &dyn Alist, list: &mut [u8]) -> f64 {
        let start = Instant::now();
        let answer = match self.call {
            Call::Import => alist.import(&self.input, list),
            Call::Export => alist.export(&self.input, list),
        };
        let seconds = start.elapsed().as_secs_f64();
        assert_eq!(answer, self.answer, "{name}");
        seconds
    }
}

/// Import and export of a code.
fn both(name: &'static str, code: &Code, bars: [Option<f64>; 2]) -> [Task; 2] {
    let records = records(code);
    let text = written(&Plan::of(code), Style::Tight, 0);
    let task = |call, input, bytes, bar| Task {
        name,
        call,
        input,
        answer: BytesAnswer { number: 0, bytes },
        bar,
    };
    let lengths = [records.len(), text.len()];
    [
        task(Call::Import, text, lengths[0], bars[0]),
        task(Call::Export, records, lengths[1], bars[1]),
    ]
}

/// The imports of all codes, then the exports.
pub fn of_codes() -> Vec<Task> {
    let mut tasks: Vec<Task> = [
        both("96 bits", &training_code(), [None, None]),
        both("1,008 bits", &regular(1_008), [None, None]),
        both("4,096 bits", &regular(4_096), [None, None]),
        both("longest", &largest_code(), [Some(1.0), Some(0.5)]),
    ]
    .into_iter()
    .flatten()
    .collect();
    tasks.sort_by_key(|task| task.call == Call::Export);
    tasks
}

pub struct Conversions {
    /// The last is slow: it takes part in one round.
    all: Vec<(&'static str, Box<dyn Alist>)>,
}

impl Conversions {
    pub fn new() -> Conversions {
        Conversions {
            all: vec![
                #[cfg(feature = "library")]
                ("library", Box::new(widagbe::Widagbe)),
                ("vectors", Box::new(Vectors)),
                ("reference", Box::new(SOUND)),
            ],
        }
    }

    pub fn names(&self) -> Vec<&'static str> {
        self.all.iter().map(|(name, _)| *name).collect()
    }

    /// The least seconds of each in all rounds; all must leave the same list.
    pub fn run(&self, task: &Task) -> Vec<f64> {
        let mut lists = vec![vec![0; task.answer.bytes]; self.all.len()];
        let mut least = vec![f64::INFINITY; self.all.len()];
        let start = Instant::now();
        for round in 0..ROUNDS {
            let present = self.all.len() - usize::from(round > 0);
            for (place, (name, alist)) in self.all[..present].iter().enumerate() {
                let seconds = task.timed(name, alist.as_ref(), &mut lists[place]);
                least[place] = least[place].min(seconds);
            }
            assert!(lists.iter().all(|list| *list == lists[0]), "lists differ");
            if start.elapsed().as_secs_f64() > SECONDS {
                break;
            }
        }
        least
    }
}
