//! What the encoder promises, on a library alone.

use crate::codes::{records, Code};
use crate::codewords::Codewords;
use crate::encoder_codes::encoded_code;
use crate::lent::{accepted, ensure, filled, refused};
use crate::random::Random;
use crate::reflection::{all_kinds_met, Kinds, Reflection};
use crate::seeds;
use crate::sums::{sum_of, wrong_words};
use interface::{Encoder, Library};
use reference::encoder::MOST_ENCODED_BITS;
use std::collections::BTreeMap;

/// The first seed, unless another is given.
pub const SEED: u64 = 0x454E_434F;

/// What must happen with some code.
const EVENTS: [&str; 5] = [
    "256 bits",
    "dependent checks",
    "message of length 0",
    "message of 100 entries or more",
    "pivot in the last column",
];

/// How often each of these was met.
#[derive(Debug, Default)]
pub struct Met {
    events: BTreeMap<&'static str, u64>,
    /// Outcomes of runs that were reflected by a word that is not all 0.
    outcomes: Kinds,
}

/// Fails unless every encoding is as promised, with each event often enough.
pub fn assert_encodings(library: &(impl Library + Encoder)) {
    let met = check_encodings(library, seeds::first(SEED)).unwrap();
    println!("{met:?}");
    let often = |event| met.events.get(event).is_some_and(|&count| count >= 10);
    assert!(EVENTS.into_iter().all(often));
    assert!(all_kinds_met(&met.outcomes, 20));
}

/// Checks encodings of random codes, from a seed on; what was met, or a failure.
pub fn check_encodings(library: &(impl Library + Encoder), first: u64) -> Result<Met, String> {
    let mut met = Met::default();
    for seed in first..first + 1_000 {
        let mut random = Random::new(seed);
        let code = encoded_code(&mut random);
        let checked = check(library, &mut random, code, &mut met);
        checked.map_err(|what| format!("seed {seed:#x}: {what}"))?;
    }
    Ok(met)
}

/// A library with a code and the length of its messages.
struct Encoding<'a, L> {
    library: &'a L,
    code: Code,
    records: Vec<u8>,
    length: usize,
}

fn check(
    library: &(impl Library + Encoder),
    random: &mut Random,
    code: Code,
    met: &mut Met,
) -> Result<(), String> {
    let records = records(&code);
    let answer = library.message_length(&records);
    if answer.number != 0 || answer.length > code.bits {
        return Err(format!("{answer:?} for a length"));
    }
    let encoding = Encoding {
        library,
        code,
        records,
        length: answer.length,
    };
    encoding.check_words(random)?;
    let columns = encoding.columns()?;
    for (event, happens) in EVENTS.into_iter().zip(encoding.events(&columns)) {
        *met.events.entry(event).or_default() += u64::from(happens);
    }
    encoding.check_codeword(random, &columns)?;
    encoding.check_refusals(random)?;
    encoding.check_run(random, &mut met.outcomes)
}

impl<L: Library + Encoder> Encoding<'_, L> {
    /// Which of the events the code has, by its columns that are no pivots.
    fn events(&self, columns: &[usize]) -> [bool; EVENTS.len()] {
        let Code { bits, checks } = &self.code;
        [
            *bits == MOST_ENCODED_BITS,
            checks.len() + self.length > *bits,
            self.length == 0,
            self.length >= 100,
            columns.last().is_none_or(|&column| column + 1 < *bits),
        ]
    }

    /// The word of a message, or the number.
    fn encode(&self, message: &[u8]) -> Result<Result<Vec<u8>, u32>, String> {
        filled(self.code.bits, 0xAB, |list| {
            self.library.encode(&self.records, message, list)
        })
    }

    /// The words of messages that stand one behind the other, or the number.
    fn encode_frames(
        &self,
        frames: usize,
        messages: &[u8],
    ) -> Result<Result<Vec<u8>, u32>, String> {
        let needed = frames.checked_mul(self.code.bits).unwrap_or(0);
        filled(needed.min(1 << 20), 0xAB, |list| {
            let (code, library) = (&self.records, self.library);
            library.encode_frames(code, frames, messages, list)
        })
    }

    /// The message of a word, or the number.
    fn read(&self, word: &[u8]) -> Result<Result<Vec<u8>, u32>, String> {
        filled(self.length, 0xAB, |list| {
            self.library.read_message(&self.records, word, list).number
        })
    }

    /// The word of a message, which is a codeword and has that message.
    fn encoded(&self, message: &[u8]) -> Result<Vec<u8>, String> {
        let word = accepted(self.encode(message)?)?;
        let tested = self.library.test(&self.records, &word).number == 0;
        ensure(tested, "the word of a message is no codeword")?;
        let read = accepted(self.read(&word)?)? == message;
        ensure(read, "a word is read as another message")?;
        Ok(word)
    }

    /// Checks the words of two messages, of their sum and of zeros, alone and as frames.
    fn check_words(&self, random: &mut Random) -> Result<(), String> {
        let [one, other] = [(); 2].map(|()| random.word(self.length));
        let sum = |length, words: &[Vec<u8>]| sum_of(self.library, length, words);
        let both = sum(self.length, &[one.clone(), other.clone()])?;
        let messages = [one, other, both, vec![0; self.length]];
        let words = messages.iter().map(|message| self.encoded(message));
        let words: Vec<Vec<u8>> = words.collect::<Result<_, String>>()?;
        let due = sum(self.code.bits, &words[..2])?;
        ensure(words[2] == due, "the sum of messages has another word")?;
        ensure(!words[3].contains(&1), "the word of zeros")?;
        for frames in 0..=4 {
            let found = self.encode_frames(frames, &messages[..frames].concat())?;
            let due = words[..frames].concat();
            ensure(accepted(found)? == due, "frames are other words")?;
        }
        Ok(())
    }

    /// The columns that are no pivots, found by the messages with a single 1. Such a column is
    /// a sum of earlier ones, so the word has its last 1 there; no other such word has a 1
    /// there, and the columns rise.
    fn columns(&self) -> Result<Vec<usize>, String> {
        let entries = (0..self.length).flat_map(|one| (0..self.length).map(move |at| (one, at)));
        let messages: Vec<u8> = entries.map(|(one, at)| u8::from(one == at)).collect();
        let words = accepted(self.encode_frames(self.length, &messages)?)?;
        let words: Vec<&[u8]> = words.chunks_exact(self.code.bits).collect();
        let last = |word: &&[u8]| word.iter().rposition(|&entry| entry == 1);
        let columns: Option<Vec<usize>> = words.iter().map(last).collect();
        let columns = columns.ok_or("a word of zeros for a message with a 1")?;
        let rise = columns.windows(2).all(|pair| pair[0] < pair[1]);
        ensure(rise, "message bits do not rise, or a pivot after them")?;
        let entries = words.iter().map(|word| columns.iter().map(|&at| word[at]));
        ensure(entries.flatten().eq(messages), "message bits elsewhere")?;
        Ok(columns)
    }

    /// Checks that a codeword is the word of the message in these columns.
    fn check_codeword(&self, random: &mut Random, columns: &[usize]) -> Result<(), String> {
        let codeword = Codewords::of(&self.code).random(random);
        let message: Vec<u8> = columns.iter().map(|&column| codeword[column]).collect();
        let equal = self.encoded(&message)? == codeword;
        ensure(equal, "a codeword is the word of no message")
    }

    /// Checks that what does not go with the code is refused.
    fn check_refusals(&self, random: &mut Random) -> Result<(), String> {
        let message = random.word(self.length);
        for (wrong, number) in wrong_words(random, &message) {
            refused(self.encode(&wrong)?, number)?;
            let frames = [&message[..], &wrong].concat();
            refused(self.encode_frames(2, &frames)?, number)?;
        }
        let number = if self.length == 0 { 10 } else { 12 };
        refused(self.encode_frames(usize::MAX, &[])?, number)?;
        let mut word = self.encoded(&message)?;
        for (wrong, number) in wrong_words(random, &word) {
            refused(self.read(&wrong)?, number)?;
        }
        // Each bit lies in some check.
        word[random.below(self.code.bits)] ^= 1;
        refused(self.read(&word)?, 17)?;
        let read = self
            .library
            .read_message(&self.records, &word, &mut vec![0; self.length]);
        let tested = self.library.test(&self.records, &word);
        ensure(read == tested, "another check is told than by the test")
    }

    /// Reflects a run by the word of a message.
    fn check_run(&self, random: &mut Random, outcomes: &mut Kinds) -> Result<(), String> {
        let mut reflection = Reflection::random(random, self.code.clone());
        reflection.codeword = self.encoded(&random.word(self.length))?;
        let number = reflection.check(self.library, self.library)?;
        reflection.count(number, outcomes);
        Ok(())
    }
}
