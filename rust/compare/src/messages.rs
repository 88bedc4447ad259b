//! Messages for the encoder, and room for what it writes.

use crate::random::Random;

#[derive(Clone, Debug)]
pub struct Messages {
    pub one: Vec<u8>,
    pub frames: usize,
    /// As many messages as there are frames, one behind the other.
    pub all: Vec<u8>,
    /// Room for one word, for the words of all frames, and for a message.
    pub room: [usize; 3],
}

impl Messages {
    /// Random messages of this length, with lists of exactly the lengths needed. What is drawn
    /// later does not depend on the length.
    pub fn random(random: &Random, bits: usize, length: usize) -> Messages {
        let mut random = random.clone();
        let frames = random.pick(&[0, 1, 2, 2, 3, 5]);
        Messages {
            one: random.word(length),
            frames,
            all: random.word(frames * length),
            room: [bits, frames * bits, length],
        }
    }
}
