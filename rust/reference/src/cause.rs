//! The table of causes.

use interface::{DecodeAnswer, WordAnswer};

/// A cause; its discriminant is its number. 16 and 17 are outcomes of a run.
#[derive(Clone, Copy, Debug, PartialEq, Eq)]
pub enum Cause {
    Cut = 1,
    Mark = 2,
    Size = 3,
    Degree = 4,
    IndexTooHigh = 5,
    IndexNotRising = 6,
    TooManyTriples = 7,
    UnusedBit = 8,
    BytesAfter = 9,
    ListTooShort = 10,
    Setting = 11,
    Lengths = 12,
    Cost = 13,
    Sample = 14,
    WordEntry = 15,
    Undecided = 16,
    NotCodeword = 17,
    Text = 18,
    Places = 19,
    TooLong = 20,
    FrameCount = 21,
}

/// 0 for success, otherwise the cause's number.
pub fn number_of<T>(result: Result<T, Cause>) -> u32 {
    match result {
        Ok(_) => 0,
        Err(cause) => cause as u32,
    }
}

/// The causes of these that hold.
pub(crate) fn holding(judged: Vec<(Cause, bool)>) -> Vec<Cause> {
    let holding = judged.into_iter().filter(|&(_, holds)| holds);
    holding.map(|(cause, _)| cause).collect()
}

impl From<Cause> for WordAnswer {
    fn from(cause: Cause) -> WordAnswer {
        WordAnswer {
            number: cause as u32,
            place: 0,
        }
    }
}

impl From<Cause> for DecodeAnswer {
    fn from(cause: Cause) -> DecodeAnswer {
        DecodeAnswer {
            number: cause as u32,
            ..DecodeAnswer::default()
        }
    }
}
