//! What the tally counts of the encoder's accepted calls.

use crate::case::Case;
use reference::encoder::MOST_ENCODED_BITS;

/// What must happen in some encoding of one message.
pub const OF_WORDS: [&str; 4] = [
    "message of length 0",
    "word of 256 bits",
    "word in a longer list",
    "word in a list of its length",
];

/// What must happen in some encoding of frames.
pub const OF_FRAMES: [&str; 6] = [
    "no frames",
    "one frame",
    "100 frames or more",
    "frames of length 0",
    "words in a longer list",
    "words in a list of their length",
];

/// The bits of accepted code records.
fn bits_of(code: &[u8]) -> usize {
    usize::from(u16::from_be_bytes([code[2], code[3]]))
}

/// What an accepted call of the encoder has; nothing of another entry.
pub fn encoder_events(case: &Case) -> Vec<(&'static str, bool)> {
    match case {
        Case::Encode {
            code,
            message,
            room,
        } => {
            let bits = bits_of(code);
            let happened = [
                message.is_empty(),
                bits == MOST_ENCODED_BITS,
                *room > bits,
                *room == bits,
            ];
            OF_WORDS.into_iter().zip(happened).collect()
        }
        Case::EncodeFrames {
            code,
            frames,
            messages,
            room,
        } => {
            let needed = frames * bits_of(code);
            let happened = [
                *frames == 0,
                *frames == 1,
                *frames >= 100,
                *frames > 0 && messages.is_empty(),
                *room > needed,
                *room == needed,
            ];
            OF_FRAMES.into_iter().zip(happened).collect()
        }
        _ => Vec::new(),
    }
}
