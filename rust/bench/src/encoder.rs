//! The encoder: rounds in which each takes its turn at the same call.

use crate::places::regular;
use compare::codes::{code_of, records, training_code, Code};
use compare::random::Random;
use interface::Encoder;
use reference::encoder::MOST_ENCODED_BITS;
use reference::SOUND;
use rivals::Packed;
use std::time::Instant;

/// Rounds go on until there are so many, or so many seconds have passed.
const ROUNDS: usize = 500;
const SECONDS: f64 = 1.0;

const SEED: u64 = 2_026;

/// Seconds that a call for one message may take.
const BAR: f64 = 0.05;

#[derive(Clone, Copy, Debug)]
pub enum Call {
    MessageLength,
    Encode,
    ReadMessage,
    /// So many messages, one call for each.
    InTurn(usize),
    /// So many messages in one call.
    Frames(usize),
}

/// A call with what it takes.
pub struct Task {
    pub name: &'static str,
    pub call: Call,
    pub bits: usize,
    pub checks: usize,
    pub length: usize,
    code: Vec<u8>,
    messages: Vec<u8>,
    word: Vec<u8>,
}

impl Task {
    fn new(name: &'static str, code: &Code, call: Call) -> Task {
        let (bits, checks, code) = (code.bits, code.checks.len(), records(code));
        let length = SOUND.message_length(&code).length;
        let mut task = Task {
            name,
            call,
            bits,
            checks,
            length,
            code,
            messages: Vec::new(),
            word: vec![0; bits],
        };
        task.messages = Random::new(SEED).word(task.frames() * length);
        let number = SOUND.encode(&task.code, &task.messages[..length], &mut task.word);
        assert_eq!(number, 0);
        task
    }

    pub fn frames(&self) -> usize {
        match self.call {
            Call::InTurn(frames) | Call::Frames(frames) => frames,
            _ => 1,
        }
    }

    /// Seconds that the call may take, where it has a bar.
    pub fn bar(&self) -> Option<f64> {
        match self.call {
            Call::InTurn(_) | Call::Frames(_) => None,
            _ => Some(BAR),
        }
    }

    /// The message of a frame.
    fn message(&self, frame: usize) -> &[u8] {
        &self.messages[frame * self.length..][..self.length]
    }

    /// Makes the call; its number.
    fn call(&self, encoder: &dyn Encoder, list: &mut [u8]) -> u32 {
        let code = &self.code;
        match self.call {
            Call::MessageLength => {
                let answer = encoder.message_length(code);
                assert_eq!(answer.length, self.length);
                answer.number
            }
            Call::Encode => encoder.encode(code, self.message(0), list),
            Call::ReadMessage => encoder.read_message(code, &self.word, list).number,
            Call::InTurn(frames) => {
                let words = (0..frames).zip(list.chunks_exact_mut(self.bits));
                let mut numbers =
                    words.map(|(frame, word)| encoder.encode(code, self.message(frame), word));
                numbers.find(|&number| number != 0).unwrap_or(0)
            }
            Call::Frames(frames) => encoder.encode_frames(code, frames, &self.messages, list),
        }
    }

    /// The seconds that the call takes.
    fn timed(&self, name: &str, encoder: &dyn Encoder, list: &mut [u8]) -> f64 {
        let start = Instant::now();
        let number = self.call(encoder, list);
        let seconds = start.elapsed().as_secs_f64();
        assert_eq!(number, 0, "{name}");
        seconds
    }
}

/// As many bits, checks and triples as can be.
fn largest() -> Code {
    code_of(&mut Random::new(SEED), MOST_ENCODED_BITS, 2_048, 8_192)
}

/// The slowest code that was found for the library, which adds rows until a check has nothing
/// left: here a check's 1 goes from the first column to the last but one, a column a row.
fn slowest() -> Code {
    let last = MOST_ENCODED_BITS - 1;
    let mut checks: Vec<Vec<usize>> = (0..last - 1).map(|bit| vec![bit, bit + 1, last]).collect();
    checks.resize(2_048, vec![0, last - 1, last]);
    Code {
        bits: MOST_ENCODED_BITS,
        checks,
    }
}

fn training() -> (&'static str, Code) {
    ("96 bits", training_code())
}

fn regular_256() -> (&'static str, Code) {
    ("256 bits", regular(MOST_ENCODED_BITS))
}

/// Each of these calls for each of these codes.
fn tasks(codes: &[(&'static str, Code)], calls: &[Call]) -> Vec<Task> {
    let of_code = |(name, code)| calls.iter().map(move |&call| Task::new(name, code, call));
    let codes = codes.iter().map(|(name, code)| (*name, code));
    codes.flat_map(of_code).collect()
}

/// The calls for one message.
pub fn single() -> Vec<Task> {
    let codes = [
        training(),
        regular_256(),
        ("largest", largest()),
        ("slowest", slowest()),
    ];
    tasks(
        &codes,
        &[Call::MessageLength, Call::Encode, Call::ReadMessage],
    )
}

/// The calls for many messages of one code.
pub fn many() -> Vec<Task> {
    let frames = [1, 8, 100, 10_000].map(Call::Frames);
    let calls = [&[Call::InTurn(100)], &frames[..]].concat();
    tasks(&[training(), regular_256()], &calls)
}

pub struct Encoders {
    all: Vec<(&'static str, Box<dyn Encoder>)>,
}

impl Encoders {
    pub fn new() -> Encoders {
        Encoders {
            all: vec![
                #[cfg(feature = "library")]
                ("library", Box::new(widagbe::Widagbe)),
                ("packed", Box::new(Packed)),
            ],
        }
    }

    pub fn names(&self) -> Vec<&'static str> {
        self.all.iter().map(|(name, _)| *name).collect()
    }

    /// The least seconds of each in all rounds; all must leave the same list.
    pub fn run(&self, task: &Task) -> Vec<f64> {
        let mut lists = vec![vec![0; task.frames() * task.bits]; self.all.len()];
        let mut least = vec![f64::INFINITY; self.all.len()];
        let start = Instant::now();
        for _ in 0..ROUNDS {
            for (place, (name, encoder)) in self.all.iter().enumerate() {
                let seconds = task.timed(name, encoder.as_ref(), &mut lists[place]);
                least[place] = least[place].min(seconds);
            }
            if start.elapsed().as_secs_f64() > SECONDS {
                break;
            }
        }
        assert!(lists.iter().all(|list| *list == lists[0]), "lists differ");
        least
    }
}
