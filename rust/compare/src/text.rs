//! Cases as lines of text, so that a failure can be replayed. Lists stand in
//! hexadecimal digits, floats as their bits, an empty list as a dash.

use crate::case::{Case, DecodeCase, GroupCase};
use interface::{Channel, Erasing, Settings};
use std::fmt;
use std::str::{FromStr, SplitWhitespace};

/// A part of a case, as words of a line.
trait Part: Sized {
    fn text(&self) -> String;

    fn parse(words: &mut SplitWhitespace) -> Result<Self, String>;
}

fn word<'a>(words: &mut SplitWhitespace<'a>) -> Result<&'a str, String> {
    words.next().ok_or("the line is too short".into())
}

macro_rules! numbers {
    ($($number:ty),+) => {$(
        impl Part for $number {
            fn text(&self) -> String {
                self.to_string()
            }

            fn parse(words: &mut SplitWhitespace) -> Result<$number, String> {
                let word = word(words)?;
                word.parse().map_err(|_| format!("{word} is no number"))
            }
        }
    )+};
}

numbers!(u32, usize);

macro_rules! lists {
    ($($entry:ty),+) => {$(
        impl Part for Vec<$entry> {
            fn text(&self) -> String {
                let bytes = self.iter().flat_map(|entry| entry.to_be_bytes());
                let halves = bytes.flat_map(|byte| [byte >> 4, byte & 15]);
                let digit = |half: u8| char::from_digit(half.into(), 16);
                let text: String = halves.filter_map(digit).collect();
                if text.is_empty() { "-".into() } else { text }
            }

            fn parse(words: &mut SplitWhitespace) -> Result<Vec<$entry>, String> {
                let word = word(words)?;
                let digits = word.trim_start_matches('-').as_bytes().chunks(2);
                let byte = |pair| u8::from_str_radix(std::str::from_utf8(pair).ok()?, 16).ok();
                let bytes: Option<Vec<u8>> = digits.map(byte).collect();
                let bytes = bytes.ok_or(format!("{word} is no list"))?;
                let entries = bytes.chunks_exact(size_of::<$entry>());
                let entry = |entry: &[u8]| entry.try_into().expect("an entry's bytes");
                Ok(entries.map(|bytes| <$entry>::from_be_bytes(entry(bytes))).collect())
            }
        }
    )+};
}

lists!(u8, i16, f32);

impl<T: Part + Default + Copy, const N: usize> Part for [T; N] {
    fn text(&self) -> String {
        self.each_ref().map(T::text).join(" ")
    }

    fn parse(words: &mut SplitWhitespace) -> Result<[T; N], String> {
        let mut parts = [T::default(); N];
        for part in &mut parts {
            *part = T::parse(words)?;
        }
        Ok(parts)
    }
}

impl Part for Settings {
    fn text(&self) -> String {
        [self.weight, self.ratio, self.limit, self.tolerance].text()
    }

    fn parse(words: &mut SplitWhitespace) -> Result<Settings, String> {
        let [weight, ratio, limit, tolerance] = Part::parse(words)?;
        Ok(Settings::new(weight, ratio, limit, tolerance))
    }
}

impl Part for Channel {
    fn text(&self) -> String {
        let (kind, floats) = match *self {
            Channel::Gaussian(scale) => ("gaussian", vec![scale]),
            Channel::Hard(weight) => ("hard", vec![weight]),
            Channel::Erasing(Erasing { floor, weight }) => ("erasing", vec![floor, weight]),
        };
        format!("{kind} {}", floats.text())
    }

    fn parse(words: &mut SplitWhitespace) -> Result<Channel, String> {
        match (word(words)?, Vec::<f32>::parse(words)?.as_slice()) {
            ("gaussian", &[scale]) => Ok(Channel::Gaussian(scale)),
            ("hard", &[weight]) => Ok(Channel::Hard(weight)),
            ("erasing", &[floor, weight]) => Ok(Channel::erasing(floor, weight)),
            (kind, _) => Err(format!("no channel {kind}")),
        }
    }
}

/// The name of each case with its parts, in the order of their words.
macro_rules! cases {
    ($($name:literal: $($part:ident),+ => { $($case:tt)+ })+) => {
        impl fmt::Display for Case {
            fn fmt(&self, line: &mut fmt::Formatter) -> fmt::Result {
                match self {
                    $($($case)+ => write!(line, "{} {}", $name, [$($part.text()),+].join(" ")),)+
                }
            }
        }

        impl FromStr for Case {
            type Err = String;

            fn from_str(line: &str) -> Result<Case, String> {
                let mut words = line.split_whitespace();
                match word(&mut words)? {
                    $($name => {
                        $(let $part = Part::parse(&mut words)?;)+
                        Ok($($case)+)
                    })+
                    name => Err(format!("no entry {name}")),
                }
            }
        }
    };
}

cases! {
    "read": code => { Case::Read { code } }
    "split": code, room => { Case::Split { code, room } }
    "front": channel, samples, room => { Case::Front { channel, samples, room } }
    "reflect": costs, word, room => { Case::Reflect { costs, word, room } }
    "test": code, word => { Case::Test { code, word } }
    "extend": code, word, room => { Case::Extend { code, word, room } }
    "add_words": word, other, room => { Case::AddWords { word, other, room } }
    "decode": code, settings, costs, room =>
        { Case::Decode(DecodeCase { code, settings, costs, room }) }
    "decode_group": code, settings, frames, costs, room =>
        { Case::DecodeGroup(GroupCase { code, settings, frames, costs, room }) }
    "import": text, room => { Case::Import { text, room } }
    "export": code, room => { Case::Export { code, room } }
    "export_size": code => { Case::ExportSize { code } }
    "message_length": code => { Case::MessageLength { code } }
    "encode": code, message, room => { Case::Encode { code, message, room } }
    "encode_frames": code, frames, messages, room =>
        { Case::EncodeFrames { code, frames, messages, room } }
    "read_message": code, word, room => { Case::ReadMessage { code, word, room } }
    "frames": input => { Case::Frames { input } }
}
