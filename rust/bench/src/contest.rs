//! Rounds in which every decoder takes its turn on the same frames.

use crate::placed::Placed;
use crate::scenario::Scenario;
use interface::{DecodeAnswer, Decoder, Lists, OwnLists};
use reference::iteration::UNIT;
use rivals::{Plain, Tuned};
use std::hint::black_box;
use std::time::Instant;

const ROUNDS: usize = 15;

/// A decoder that takes part. An earlier library may refuse a degree that is allowed now.
struct Entrant {
    name: &'static str,
    decoder: Box<dyn Decoder>,
    may_refuse: bool,
}

impl Entrant {
    fn new(name: &'static str, decoder: impl Decoder + 'static) -> Entrant {
        Entrant {
            name,
            decoder: Box::new(decoder),
            may_refuse: false,
        }
    }

    #[cfg(feature = "before")]
    fn earlier(name: &'static str, decoder: impl Decoder + 'static) -> Entrant {
        Entrant {
            may_refuse: true,
            ..Entrant::new(name, decoder)
        }
    }

    /// Whether it refuses a scenario's code for a degree.
    fn refuses(&self, scenario: &Scenario) -> bool {
        let answer = |decoder| decode(decoder, scenario, 0, lists(scenario).lend());
        self.may_refuse && answer(self.decoder.as_ref()).number == 4
    }
}

pub struct Contest {
    entrants: Vec<Entrant>,
}

/// What the frames came to, and the time that each decoder took for them.
pub struct ContestResult {
    pub iterations: u64,
    pub settled: usize,
    pub right: usize,
    /// The part of all values that are -U or U at the end of their frames.
    pub at_limit: f64,
    /// Seconds for all frames: each frame's least, and its middle, of all rounds; nothing of a
    /// decoder that refuses the code.
    pub seconds: Vec<Option<(f64, f64)>>,
}

fn lists(scenario: &Scenario) -> OwnLists {
    let code = &scenario.code;
    OwnLists::exact(code.bits, code.variables(), code.triples(), 0)
}

fn decode(decoder: &dyn Decoder, scenario: &Scenario, frame: usize, lists: Lists) -> DecodeAnswer {
    let costs = &scenario.frames[frame];
    decoder.decode(&scenario.records, scenario.settings, costs, lists)
}

/// Calls from so many times some hundred bytes further down the stack: a decoder has lists
/// there, and where they lie from the lent ones, modulo a page, can cost a small code a
/// quarter of its time.
#[inline(never)]
fn deeper(times: usize, call: &mut dyn FnMut()) {
    let room = black_box([0u8; 256]);
    match times {
        0 => call(),
        _ => deeper(times - 1, call),
    }
    black_box(&room);
}

/// The part of these values that are -U or U.
fn at_limit(values: &[i16]) -> f64 {
    let limited = values.iter().filter(|c| i64::from(c.abs()) == UNIT);
    limited.count() as f64 / values.len() as f64
}

/// The seconds of calls in all rounds: a list for each who takes part, in it one for each of as
/// many calls as are given for him. Another one begins in each round, and all go around a page
/// of the stack.
pub fn in_turn(calls: &[usize], mut call: impl FnMut(usize, usize)) -> Vec<Vec<Vec<f64>>> {
    let lists = |&calls: &usize| vec![Vec::new(); calls];
    let mut times: Vec<Vec<Vec<f64>>> = calls.iter().map(lists).collect();
    for round in 0..ROUNDS {
        for place in (0..calls.len()).map(|turn| (round + turn) % calls.len()) {
            for (number, times) in times[place].iter_mut().enumerate() {
                let mut timed = || {
                    let start = Instant::now();
                    call(place, number);
                    times.push(start.elapsed().as_secs_f64());
                };
                deeper(round, &mut timed);
            }
        }
    }
    times
}

/// The least and the middle times of calls, added up, if there are any.
pub fn summed(calls: Vec<Vec<f64>>) -> Option<(f64, f64)> {
    let times = calls.into_iter().map(|mut times| {
        times.sort_by(f64::total_cmp);
        (times[0], times[times.len() / 2])
    });
    times.reduce(|sum, times| (sum.0 + times.0, sum.1 + times.1))
}

impl Contest {
    pub fn new() -> Contest {
        Contest {
            entrants: vec![
                #[cfg(feature = "library")]
                Entrant::new("library", widagbe::Widagbe),
                #[cfg(feature = "before")]
                Entrant::earlier("before", crate::before::Before),
                Entrant::new("plain", Plain),
                Entrant::new("tuned", Tuned),
            ],
        }
    }

    pub fn names(&self) -> Vec<&'static str> {
        self.entrants.iter().map(|entrant| entrant.name).collect()
    }

    /// Checks that all decoders agree, then measures them in turn.
    pub fn run(&self, scenario: &Scenario) -> ContestResult {
        let mut result = self.agreed(scenario);
        result.seconds = self.times(scenario, &mut Placed::anywhere(scenario));
        result
    }

    /// What every decoder takes for all frames, on the same lists.
    pub fn times(&self, scenario: &Scenario, lists: &mut Placed) -> Vec<Option<(f64, f64)>> {
        let frames = |entrant: &Entrant| match entrant.refuses(scenario) {
            true => 0,
            false => scenario.frames.len(),
        };
        let frames: Vec<usize> = self.entrants.iter().map(frames).collect();
        let times = in_turn(&frames, |place, frame| {
            let decoder = self.entrants[place].decoder.as_ref();
            decode(decoder, scenario, frame, lists.lend());
        });
        times.into_iter().map(summed).collect()
    }

    fn agreed(&self, scenario: &Scenario) -> ContestResult {
        let mut result = ContestResult {
            iterations: 0,
            settled: 0,
            right: 0,
            at_limit: 0.0,
            seconds: Vec::new(),
        };
        for frame in 0..scenario.frames.len() {
            let mut first = lists(scenario);
            let answer = decode(&Plain, scenario, frame, first.lend());
            let taking = |entrant: &&Entrant| !entrant.refuses(scenario);
            for Entrant { name, decoder, .. } in self.entrants.iter().filter(taking) {
                let mut other = lists(scenario);
                let found = decode(decoder.as_ref(), scenario, frame, other.lend());
                assert!(found == answer && other == first, "{name} differs");
            }
            result.iterations += u64::from(answer.k);
            result.settled += answer.settled as usize;
            result.right += usize::from(answer.number == 0 && !first.word.contains(&1));
            result.at_limit += at_limit(&first.values) / scenario.frames.len() as f64;
        }
        result
    }
}
