//! The rival of the encoder: rows packed in 64-bit words; for many frames a generator.

mod generator;
mod reduced;
mod row;

use crate::plain::Refused;
use generator::Generator;
use interface::{Encoder, LengthAnswer, WordAnswer};
use reduced::Reduced;

/// From so many frames on a generator is made. It takes about the time of 10 words of 96 bits,
/// or of 24 words of 256.
const MANY_FRAMES: usize = 16;

fn encode_frames(code: &[u8], frames: usize, messages: &[u8], words: &mut [u8]) -> Refused<()> {
    let reduced = Reduced::read(code)?;
    reduced.judge(frames, messages, words.len())?;
    let length = reduced.length();
    let words = words.chunks_exact_mut(reduced.code.bits).take(frames);
    let words = words.enumerate();
    let message = |frame: usize| &messages[frame * length..][..length];
    if frames < MANY_FRAMES {
        words.for_each(|(frame, word)| reduced.write(message(frame), word));
    } else {
        let generator = Generator::of(reduced);
        words.for_each(|(frame, word)| generator.write(message(frame), word));
    }
    Ok(())
}

pub struct Packed;

impl Encoder for Packed {
    fn message_length(&self, code: &[u8]) -> LengthAnswer {
        match Reduced::read(code) {
            Ok(reduced) => LengthAnswer {
                number: 0,
                length: reduced.length(),
            },
            Err(number) => LengthAnswer { number, length: 0 },
        }
    }

    fn encode(&self, code: &[u8], message: &[u8], word: &mut [u8]) -> u32 {
        self.encode_frames(code, 1, message, word)
    }

    fn encode_frames(&self, code: &[u8], frames: usize, messages: &[u8], words: &mut [u8]) -> u32 {
        encode_frames(code, frames, messages, words)
            .err()
            .unwrap_or(0)
    }

    fn read_message(&self, code: &[u8], word: &[u8], message: &mut [u8]) -> WordAnswer {
        match Reduced::read(code) {
            Ok(reduced) => reduced.read_word(word, message).err().unwrap_or_default(),
            Err(number) => WordAnswer { number, place: 0 },
        }
    }
}
