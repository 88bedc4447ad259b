//! The compiled library from Rust: slices in, plain answers out. The borrow
//! rules keep lent lists apart, so every call here is safe. Types and traits are
//! those of `interface`; `examples/decode.rs` is a whole program, and `examples/group.rs` one that
//! decodes several frames in one call.

#[macro_use]
mod call;
mod ffi;

use ffi::*;
pub use interface::*;

/// The compiled library.
#[derive(Clone, Copy, Debug)]
pub struct Widagbe;

decoder! { Widagbe, widagbe_decode }

impl Grouping for Widagbe {
    fn decode_group(
        &self,
        code: &[u8],
        settings: Settings,
        frames: usize,
        costs: &[i16],
        lists: Lists,
        work: &mut [i32],
    ) -> GroupAnswer {
        call! { widagbe_decode_group(
            [code],
            settings.weight, settings.ratio, settings.limit, settings.tolerance,
            frames,
            [costs],
            [mut lists.triples], [mut lists.counts], [mut lists.sums],
            [mut lists.values], [mut lists.rows], [mut lists.word],
            [mut work]
        ) }
    }
}

impl Library for Widagbe {
    fn read(&self, code: &[u8]) -> CodeAnswer {
        call! { widagbe_read([code]) }
    }

    fn split(&self, code: &[u8], triples: &mut [u16], counts: &mut [u16]) -> u32 {
        call! { widagbe_split([code], [mut triples], [mut counts]) }
    }

    fn front(&self, channel: Channel, samples: &[f32], costs: &mut [i16]) -> u32 {
        match channel {
            Channel::Gaussian(scale) => {
                call! { widagbe_channel_gaussian(scale, [samples], [mut costs]) }
            }
            Channel::Hard(weight) => {
                call! { widagbe_channel_hard(weight, [samples], [mut costs]) }
            }
            Channel::Erasing(Erasing { floor, weight }) => {
                call! { widagbe_channel_erasing(floor, weight, [samples], [mut costs]) }
            }
        }
    }

    fn reflect(&self, costs: &[i16], word: &[u8], result: &mut [i16]) -> u32 {
        call! { widagbe_reflect([costs], [word], [mut result]) }
    }

    fn test(&self, code: &[u8], word: &[u8]) -> WordAnswer {
        call! { widagbe_test([code], [word]) }
    }

    fn extend(&self, code: &[u8], word: &[u8], point: &mut [u8]) -> WordAnswer {
        call! { widagbe_extend([code], [word], [mut point]) }
    }

    fn add_words(&self, word: &[u8], other: &[u8], sum: &mut [u8]) -> u32 {
        call! { widagbe_add_words([word], [other], [mut sum]) }
    }
}

impl Alist for Widagbe {
    fn import(&self, text: &[u8], code: &mut [u8]) -> BytesAnswer {
        call! { widagbe_import([text], [mut code]) }
    }

    fn export(&self, code: &[u8], text: &mut [u8]) -> BytesAnswer {
        call! { widagbe_export([code], [mut text]) }
    }

    fn export_size(&self, code: &[u8]) -> BytesAnswer {
        call! { widagbe_export_size([code]) }
    }
}

impl Encoder for Widagbe {
    fn message_length(&self, code: &[u8]) -> LengthAnswer {
        call! { widagbe_message_length([code]) }
    }

    fn encode(&self, code: &[u8], message: &[u8], word: &mut [u8]) -> u32 {
        call! { widagbe_encode([code], [message], [mut word]) }
    }

    fn encode_frames(&self, code: &[u8], frames: usize, messages: &[u8], words: &mut [u8]) -> u32 {
        call! { widagbe_encode_frames([code], frames, [messages], [mut words]) }
    }

    fn read_message(&self, code: &[u8], word: &[u8], message: &mut [u8]) -> WordAnswer {
        call! { widagbe_read_message([code], [word], [mut message]) }
    }
}
