//! A library written from documents 01 and 02 alone: plain, slow where that is
//! clearer, and independent of every other one here. On request it is wrong
//! in one place (`fault`), for tests of the comparisons.

mod alist;
mod bytes;
pub mod cause;
mod channel;
mod decoder;
pub mod encoder;
mod export;
pub mod fault;
mod frames;
mod group;
mod import;
pub mod iteration;
pub mod quotient;
pub mod records;
pub mod reduction;
pub mod run;
pub mod splitting;
mod words;

use cause::number_of;
use fault::Fault;
use interface::{
    Alist, BytesAnswer, Channel, CodeAnswer, DecodeAnswer, Decoder, Encoder, GroupAnswer, Grouping,
    LengthAnswer, Library, Lists, Settings, WordAnswer,
};

/// The reference, with its fault if it has one.
#[derive(Clone, Copy, Debug)]
pub struct Reference {
    pub fault: Option<Fault>,
}

/// The reference as it should be.
pub const SOUND: Reference = Reference { fault: None };

impl Decoder for Reference {
    fn decode(&self, code: &[u8], settings: Settings, costs: &[i16], lists: Lists) -> DecodeAnswer {
        let result = self.try_decode(code, settings, costs, lists);
        result.unwrap_or_else(DecodeAnswer::from)
    }
}

impl Grouping for Reference {
    fn decode_group(
        &self,
        code: &[u8],
        settings: Settings,
        frames: usize,
        costs: &[i16],
        lists: Lists,
        work: &mut [i32],
    ) -> GroupAnswer {
        let result = self.try_decode_group(code, settings, frames, costs, lists, work);
        result.unwrap_or_else(|cause| self.refused_group(cause))
    }
}

impl Library for Reference {
    fn read(&self, code: &[u8]) -> CodeAnswer {
        match self.read_code(code) {
            Ok(code) => CodeAnswer {
                number: 0,
                bits: code.bits,
                checks: code.checks.len(),
                triples: self.triples(&code),
            },
            Err(cause) => CodeAnswer {
                number: cause as u32,
                bits: usize::from(self.has(Fault::SizesWithRefusal)),
                ..CodeAnswer::default()
            },
        }
    }

    fn split(&self, code: &[u8], triples: &mut [u16], counts: &mut [u16]) -> u32 {
        number_of(self.try_split(code, triples, counts))
    }

    fn front(&self, channel: Channel, samples: &[f32], costs: &mut [i16]) -> u32 {
        number_of(self.try_front(channel, samples, costs))
    }

    fn reflect(&self, costs: &[i16], word: &[u8], result: &mut [i16]) -> u32 {
        number_of(self.try_reflect(costs, word, result))
    }

    fn test(&self, code: &[u8], word: &[u8]) -> WordAnswer {
        self.try_test(code, word, None).err().unwrap_or_default()
    }

    fn extend(&self, code: &[u8], word: &[u8], point: &mut [u8]) -> WordAnswer {
        let result = self.try_extend(code, word, point);
        result.err().unwrap_or_default()
    }

    fn add_words(&self, word: &[u8], other: &[u8], sum: &mut [u8]) -> u32 {
        number_of(self.try_add_words(word, other, sum))
    }
}

impl Alist for Reference {
    fn import(&self, text: &[u8], code: &mut [u8]) -> BytesAnswer {
        self.bytes_answer(self.try_import(text, code))
    }

    fn export(&self, code: &[u8], text: &mut [u8]) -> BytesAnswer {
        self.bytes_answer(self.try_export(code, text))
    }

    fn export_size(&self, code: &[u8]) -> BytesAnswer {
        self.bytes_answer(self.try_export_size(code))
    }
}

impl Encoder for Reference {
    fn message_length(&self, code: &[u8]) -> LengthAnswer {
        self.length_answer(code)
    }

    fn encode(&self, code: &[u8], message: &[u8], word: &mut [u8]) -> u32 {
        self.encode_frames(code, 1, message, word)
    }

    fn encode_frames(&self, code: &[u8], frames: usize, messages: &[u8], words: &mut [u8]) -> u32 {
        number_of(self.try_encode_frames(code, frames, messages, words))
    }

    fn read_message(&self, code: &[u8], word: &[u8], message: &mut [u8]) -> WordAnswer {
        let result = self.try_read_message(code, word, message);
        result.err().unwrap_or_default()
    }
}
