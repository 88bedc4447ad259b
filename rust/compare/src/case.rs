//! One call with all its inputs and the lengths of its lent lists.

use crate::codes::{group_room, records, room, Code};
use interface::{Channel, Settings};

#[derive(Clone, Debug, PartialEq)]
pub enum Case {
    Read {
        code: Vec<u8>,
    },
    /// Room for triples and counts.
    Split {
        code: Vec<u8>,
        room: [usize; 2],
    },
    Front {
        channel: Channel,
        samples: Vec<f32>,
        room: usize,
    },
    Reflect {
        costs: Vec<i16>,
        word: Vec<u8>,
        room: usize,
    },
    Test {
        code: Vec<u8>,
        word: Vec<u8>,
    },
    Extend {
        code: Vec<u8>,
        word: Vec<u8>,
        room: usize,
    },
    AddWords {
        word: Vec<u8>,
        other: Vec<u8>,
        room: usize,
    },
    Decode(DecodeCase),
    DecodeGroup(GroupCase),
    Import {
        text: Vec<u8>,
        room: usize,
    },
    Export {
        code: Vec<u8>,
        room: usize,
    },
    ExportSize {
        code: Vec<u8>,
    },
    MessageLength {
        code: Vec<u8>,
    },
    Encode {
        code: Vec<u8>,
        message: Vec<u8>,
        room: usize,
    },
    EncodeFrames {
        code: Vec<u8>,
        frames: usize,
        messages: Vec<u8>,
        room: usize,
    },
    ReadMessage {
        code: Vec<u8>,
        word: Vec<u8>,
        room: usize,
    },
    Frames {
        input: Vec<u8>,
    },
}

/// Room for triples, counts, sums, values, rows and word.
#[derive(Clone, Debug, PartialEq)]
pub struct DecodeCase {
    pub code: Vec<u8>,
    pub settings: Settings,
    pub costs: Vec<i16>,
    pub room: [usize; 6],
}

/// Costs of so many frames, one behind the other; room for the same lists, and for the work list.
#[derive(Clone, Debug, PartialEq)]
pub struct GroupCase {
    pub code: Vec<u8>,
    pub settings: Settings,
    pub frames: usize,
    pub costs: Vec<i16>,
    pub room: [usize; 7],
}

/// A decoding with lists of exactly the lengths needed.
pub fn exact_case(code: &Code, settings: Settings, costs: Vec<i16>) -> Case {
    Case::Decode(DecodeCase {
        code: records(code),
        settings,
        costs,
        room: room(code),
    })
}

/// A group of frames with lists of exactly the lengths needed.
pub fn exact_group(code: &Code, settings: Settings, frames: &[Vec<i16>]) -> GroupCase {
    GroupCase {
        code: records(code),
        settings,
        frames: frames.len(),
        costs: frames.concat(),
        room: group_room(code, frames.len()),
    }
}

impl GroupCase {
    /// One frame of a code of so many bits, as a call of the decoder that lends nothing.
    pub fn frame(&self, frame: usize, bits: usize) -> DecodeCase {
        DecodeCase {
            code: self.code.clone(),
            settings: self.settings,
            costs: self.costs[frame * bits..][..bits].to_vec(),
            room: [0; 6],
        }
    }
}

impl Case {
    /// The code records that the case has, unless it is an input of the frame program.
    pub fn records(&self) -> Option<&[u8]> {
        match self {
            Case::Decode(case) => Some(&case.code),
            Case::DecodeGroup(case) => Some(&case.code),
            Case::Read { code }
            | Case::Split { code, .. }
            | Case::Test { code, .. }
            | Case::Extend { code, .. }
            | Case::Export { code, .. }
            | Case::ExportSize { code }
            | Case::MessageLength { code }
            | Case::Encode { code, .. }
            | Case::EncodeFrames { code, .. }
            | Case::ReadMessage { code, .. } => Some(code),
            _ => None,
        }
    }

    /// The entry that the case calls; each kind of channel counts as one.
    pub fn entry(&self) -> &'static str {
        match self {
            Case::Read { .. } => "read",
            Case::Split { .. } => "split",
            Case::Front { channel, .. } => match channel {
                Channel::Gaussian(_) => "gaussian",
                Channel::Hard(_) => "hard",
                Channel::Erasing(_) => "erasing",
            },
            Case::Reflect { .. } => "reflect",
            Case::Test { .. } => "test",
            Case::Extend { .. } => "extend",
            Case::AddWords { .. } => "add_words",
            Case::Decode(_) => "decode",
            Case::DecodeGroup(_) => "decode_group",
            Case::Import { .. } => "import",
            Case::Export { .. } => "export",
            Case::ExportSize { .. } => "export_size",
            Case::MessageLength { .. } => "message_length",
            Case::Encode { .. } => "encode",
            Case::EncodeFrames { .. } => "encode_frames",
            Case::ReadMessage { .. } => "read_message",
            Case::Frames { .. } => "frames",
        }
    }
}
