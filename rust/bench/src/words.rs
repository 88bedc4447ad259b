//! The reflector and the sum of two words: rounds in which each takes its turn at
//! the same call.

use compare::random::Random;
use std::hint::black_box;
use std::time::Instant;

const ROUNDS: usize = 500;
/// Calls that are timed together, since one takes less than a microsecond.
const CALLS: usize = 100;

pub const LENGTHS: [usize; 3] = [96, 1_008, 4_096];

#[derive(Clone, Copy, Debug)]
pub enum Call {
    Reflect,
    AddWords,
}

type Reflect = fn(&[i16], &[u8], &mut [i16]) -> u32;
type AddWords = fn(&[u8], &[u8], &mut [u8]) -> u32;

/// Who has both calls.
struct Entrant {
    name: &'static str,
    reflect: Reflect,
    add_words: AddWords,
}

/// What the calls take, and the lists that they fill.
struct Lists {
    costs: Vec<i16>,
    word: Vec<u8>,
    other: Vec<u8>,
    result: Vec<i16>,
    sum: Vec<u8>,
}

impl Lists {
    fn random(length: usize) -> Lists {
        let mut random = Random::new(9);
        let (word, other) = (random.word(length), random.word(length));
        let cost = |_| random.below(65_535) as i32 - 32_767;
        Lists {
            costs: (0..length).map(cost).map(|cost| cost as i16).collect(),
            word,
            other,
            result: vec![0; length],
            sum: vec![0; length],
        }
    }
}

impl Entrant {
    fn call(&self, call: Call, lists: &mut Lists) -> u32 {
        let word = black_box(&lists.word);
        match call {
            Call::Reflect => (self.reflect)(&lists.costs, word, &mut lists.result),
            Call::AddWords => (self.add_words)(word, &lists.other, &mut lists.sum),
        }
    }

    /// The seconds that a call takes.
    fn timed(&self, call: Call, lists: &mut Lists) -> f64 {
        let start = Instant::now();
        for _ in 0..CALLS {
            assert_eq!(self.call(call, lists), 0, "{}", self.name);
        }
        start.elapsed().as_secs_f64() / CALLS as f64
    }
}

pub struct Words {
    all: Vec<Entrant>,
}

impl Words {
    pub fn new() -> Words {
        Words {
            all: vec![
                #[cfg(feature = "library")]
                Entrant {
                    name: "library",
                    reflect: |costs, word, result| {
                        interface::Library::reflect(&widagbe::Widagbe, costs, word, result)
                    },
                    add_words: |word, other, sum| {
                        interface::Library::add_words(&widagbe::Widagbe, word, other, sum)
                    },
                },
                Entrant {
                    name: "iterators",
                    reflect: rivals::reflect,
                    add_words: rivals::add_words,
                },
            ],
        }
    }

    pub fn names(&self) -> Vec<&'static str> {
        self.all.iter().map(|entrant| entrant.name).collect()
    }

    /// The least seconds of each in all rounds; all must leave the same lists.
    pub fn run(&self, call: Call, length: usize) -> Vec<f64> {
        let mut lists: Vec<Lists> = self.all.iter().map(|_| Lists::random(length)).collect();
        let mut least = vec![f64::INFINITY; self.all.len()];
        for _ in 0..ROUNDS {
            for (place, entrant) in self.all.iter().enumerate() {
                let seconds = entrant.timed(call, &mut lists[place]);
                least[place] = least[place].min(seconds);
            }
        }
        for left in &lists {
            assert!(left.result == lists[0].result && left.sum == lists[0].sum);
        }
        least
    }
}
