//! Drafts of calls: sound inputs for every entry that takes code records.

use crate::case::{Case, DecodeCase};
use crate::codes::{records, room, text_bytes, Code};
use crate::codewords::Codewords;
use crate::group::Group;
use crate::messages::Messages;
use crate::random::Random;
use interface::Settings;

/// An entry that takes code records.
#[derive(Clone, Copy, Debug, PartialEq, Eq)]
pub enum Entry {
    Read,
    Split,
    Test,
    Extend,
    Decode,
    DecodeGroup,
    Export,
    ExportSize,
    MessageLength,
    Encode,
    EncodeFrames,
    ReadMessage,
}

/// The entries of the encoder.
pub const OF_ENCODER: [Entry; 4] = [
    Entry::MessageLength,
    Entry::Encode,
    Entry::EncodeFrames,
    Entry::ReadMessage,
];

pub const ENTRIES: [Entry; 12] = [
    Entry::Read,
    Entry::Split,
    Entry::Test,
    Entry::Extend,
    Entry::Decode,
    Entry::DecodeGroup,
    Entry::Export,
    Entry::ExportSize,
    Entry::MessageLength,
    Entry::Encode,
    Entry::EncodeFrames,
    Entry::ReadMessage,
];

/// Inputs and lengths for a call of any such entry.
#[derive(Clone, Debug)]
pub struct Draft {
    pub code: Code,
    pub records: Vec<u8>,
    pub word: Vec<u8>,
    pub settings: Settings,
    pub costs: Vec<i16>,
    /// Room for triples, counts, sums, values, rows and word.
    pub room: [usize; 6],
    pub point_room: usize,
    pub text_room: usize,
    pub messages: Messages,
    pub group: Group,
}

impl Draft {
    /// Random inputs for a random code.
    pub fn random(random: &mut Random, code: fn(&mut Random) -> Code) -> Draft {
        let code = code(random);
        Draft::of(random, code)
    }

    /// Random inputs for a code, with lists of exactly the lengths needed.
    pub fn of(random: &mut Random, code: Code) -> Draft {
        let codewords = Codewords::of(&code);
        let word = random_word(random, &codewords);
        let codeword = codewords.random(random);
        Draft {
            records: records(&code),
            word,
            settings: random_settings(random),
            costs: random_costs(random, &codeword),
            room: room(&code),
            point_room: code.variables(),
            text_room: text_bytes(&code),
            messages: Messages::random(random, code.bits, codewords.message_length()),
            group: Group::random(random, &code, &codewords),
            code,
        }
    }

    /// Lends lists longer than needed, each by a few entries.
    pub fn lengthen(&mut self, random: &mut Random) {
        let others = [&mut self.point_room, &mut self.text_room];
        let of_messages = &mut self.messages.room;
        let others = self.room.iter_mut().chain(others).chain(of_messages);
        for room in others.chain(&mut self.group.room) {
            *room += random.below(4);
        }
    }

    pub fn case(&self, entry: Entry) -> Case {
        let code = self.records.clone();
        match entry {
            Entry::Read => Case::Read { code },
            Entry::Split => Case::Split {
                code,
                room: [self.room[0], self.room[1]],
            },
            Entry::Test => Case::Test {
                code,
                word: self.word.clone(),
            },
            Entry::Extend => Case::Extend {
                code,
                word: self.word.clone(),
                room: self.point_room,
            },
            Entry::Decode => Case::Decode(DecodeCase {
                code,
                settings: self.settings,
                costs: self.costs.clone(),
                room: self.room,
            }),
            Entry::DecodeGroup => Case::DecodeGroup(self.group.case(code, self.settings)),
            Entry::Export => Case::Export {
                code,
                room: self.text_room,
            },
            Entry::ExportSize => Case::ExportSize { code },
            Entry::MessageLength => Case::MessageLength { code },
            Entry::Encode => Case::Encode {
                code,
                message: self.messages.one.clone(),
                room: self.messages.room[0],
            },
            Entry::EncodeFrames => Case::EncodeFrames {
                code,
                frames: self.messages.frames,
                messages: self.messages.all.clone(),
                room: self.messages.room[1],
            },
            Entry::ReadMessage => Case::ReadMessage {
                code,
                word: self.word.clone(),
                room: self.messages.room[2],
            },
        }
    }
}

/// A codeword, one with an entry changed, or any word.
fn random_word(random: &mut Random, codewords: &Codewords) -> Vec<u8> {
    let mut word = codewords.random(random);
    match random.below(4) {
        0 => {
            let place = random.below(word.len());
            word[place] ^= 1;
        }
        1 => word = random.word(word.len()),
        _ => (),
    }
    word
}

/// Settings within their ranges, at the ends more often than by chance.
pub fn random_settings(random: &mut Random) -> Settings {
    let any_weight = random.between(1, 65_535) as u32;
    let any_ratio = random.between(0, 1_023) as u32;
    let any_tolerance = random.any() as u32 >> random.below(32);
    Settings {
        weight: random.pick(&[1, 2, 64, 128, 255, 256, 256, 512, 1_024, 65_535, any_weight]),
        ratio: random.pick(&[0, 0, 1, 150, 256, 512, 1_022, 1_023, any_ratio]),
        limit: random_limit(random),
        tolerance: random.pick(&[
            0,
            1,
            10_000,
            1_000_000,
            0x3FFF_FFFF,
            0x4000_0000,
            u32::MAX,
            any_tolerance,
        ]),
    }
}

fn random_limit(random: &mut Random) -> u32 {
    let most = random.pick(&[1, 2, 3, 5, 10, 20, 40]);
    random.between(1, most) as u32
}

/// A number from -`most` to `most`.
fn signed(random: &mut Random, most: usize) -> i32 {
    random.below(2 * most + 1) as i32 - most as i32
}

/// Costs of any size up to the most, for no word in particular.
pub fn wild_costs(random: &mut Random, bits: usize, most: usize) -> Vec<i16> {
    (0..bits).map(|_| signed(random, most) as i16).collect()
}

/// Costs of several kinds: noisy signs of a codeword, small ones for ties, and
/// wild ones.
pub fn random_costs(random: &mut Random, codeword: &[u8]) -> Vec<i16> {
    let kind = random.below(6);
    let strength = random.pick(&[3, 100, 3_000, 15_000]);
    let cost = |random: &mut Random, bit: u8| {
        let sign = 1 - 2 * i32::from(bit);
        match kind {
            0 => signed(random, 32_767),
            1 => signed(random, 3),
            2 => 32_767 * random.pick(&[-1, 0, 1, 1]) * sign,
            _ => strength * sign + signed(random, strength as usize + 2),
        }
    };
    codeword
        .iter()
        .map(|&bit| cost(random, bit).clamp(-32_767, 32_767) as i16)
        .collect()
}
