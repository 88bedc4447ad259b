//! The plain rival: safe Rust, three passes an iteration, full totals.

pub mod group;
pub mod records;
pub mod run;
mod split;

use group::grouping;
use interface::{DecodeAnswer, Decoder, Lists, Settings};

/// The number of a cause, where a call is refused.
pub type Refused<T> = Result<T, u32>;

pub struct Plain;

impl Decoder for Plain {
    fn decode(&self, code: &[u8], settings: Settings, costs: &[i16], lists: Lists) -> DecodeAnswer {
        run::decode(code, settings, costs, lists, run::run)
    }
}

grouping! { Plain, |frames, _| group::run_each(frames, run::run) }
