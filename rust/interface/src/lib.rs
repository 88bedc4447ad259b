//! The library's entries as Rust sees them: settings, lent lists and answers,
//! and the traits of those who answer.
//!
//! A number is 0 for success and otherwise the cause's number in the table of
//! document 01; fields that the table does not name are 0. A refused call leaves
//! all lent lists as they were. The answers are laid out as C has them.

/// What the reader of code records hands back: the sizes of a code.
#[repr(C)]
#[derive(Clone, Copy, Debug, Default, PartialEq, Eq)]
pub struct CodeAnswer {
    pub number: u32,
    pub bits: usize,
    pub checks: usize,
    pub triples: usize,
}

/// What the codeword test, the extension and the reader of messages hand back; the place is
/// a check.
#[repr(C)]
#[derive(Clone, Copy, Debug, Default, PartialEq, Eq)]
pub struct WordAnswer {
    pub number: u32,
    pub place: usize,
}

/// What the decoder hands back; the place is a bit or a check.
#[repr(C)]
#[derive(Clone, Copy, Debug, Default, PartialEq, Eq)]
pub struct DecodeAnswer {
    pub number: u32,
    pub place: usize,
    pub k: u32,
    pub settled: u32,
}

/// The most frames of a group.
pub const MOST_FRAMES: usize = 8;

/// What a group of frames gets: an answer for each frame. Those past the given frames are 0,
/// and so are all of a refused group.
#[repr(C)]
#[derive(Clone, Copy, Debug, Default, PartialEq, Eq)]
pub struct GroupAnswer {
    pub number: u32,
    pub frames: [DecodeAnswer; MOST_FRAMES],
}

/// What import and export hand back: how many bytes were written.
#[repr(C)]
#[derive(Clone, Copy, Debug, Default, PartialEq, Eq)]
pub struct BytesAnswer {
    pub number: u32,
    pub bytes: usize,
}

/// How many entries a message has.
#[repr(C)]
#[derive(Clone, Copy, Debug, Default, PartialEq, Eq)]
pub struct LengthAnswer {
    pub number: u32,
    pub length: usize,
}

/// The settings of a run: W, A, K and X of document 01.
#[derive(Clone, Copy, Debug, Default, PartialEq, Eq)]
pub struct Settings {
    /// W, 1 to 65,535: how much the costs weigh.
    pub weight: u32,
    /// A, 0 to 1,023: the penalty that drives values away from the middle.
    pub ratio: u32,
    /// K, 1 to 4,000: the most iterations.
    pub limit: u32,
    /// X, any number: how little may change for the run to settle.
    pub tolerance: u32,
}

impl Settings {
    /// W, A, K and X.
    pub const fn new(weight: u32, ratio: u32, limit: u32, tolerance: u32) -> Settings {
        Settings {
            weight,
            ratio,
            limit,
            tolerance,
        }
    }
}

/// The floor and the weight of an erasing channel belong together.
#[derive(Clone, Copy, Debug, PartialEq)]
pub struct Erasing {
    pub floor: f32,
    pub weight: f32,
}

/// A channel setting is one of three kinds.
#[derive(Clone, Copy, Debug, PartialEq)]
pub enum Channel {
    Gaussian(f32),
    Hard(f32),
    Erasing(Erasing),
}

impl Channel {
    pub const fn erasing(floor: f32, weight: f32) -> Channel {
        Channel::Erasing(Erasing { floor, weight })
    }
}

/// The lists that the decoder's caller lends. A check of two bits has one triple, whose third
/// entry is 0xFFFF, the blank; the lists of counts, sums and values have no entry for it. In
/// sums, values, rows and word the frames of a group stand one behind the other.
pub struct Lists<'a> {
    pub triples: &'a mut [u16],
    pub counts: &'a mut [u16],
    pub sums: &'a mut [i64],
    pub values: &'a mut [i16],
    pub rows: &'a mut [i32],
    pub word: &'a mut [u8],
}

/// Such lists, owned.
#[derive(Clone, Debug, Default, PartialEq, Eq)]
pub struct OwnLists {
    pub triples: Vec<u16>,
    pub counts: Vec<u16>,
    pub sums: Vec<i64>,
    pub values: Vec<i16>,
    pub rows: Vec<i32>,
    pub word: Vec<u8>,
}

impl OwnLists {
    /// Lists of exactly the needed lengths, every entry `fill`.
    pub fn exact(bits: usize, variables: usize, triples: usize, fill: u8) -> OwnLists {
        OwnLists::exact_group(1, bits, variables, triples, fill)
    }

    /// The same for a group of so many frames.
    pub fn exact_group(
        frames: usize,
        bits: usize,
        variables: usize,
        triples: usize,
        fill: u8,
    ) -> OwnLists {
        OwnLists {
            triples: vec![fill.into(); 3 * triples],
            counts: vec![fill.into(); variables],
            sums: vec![fill.into(); frames * variables],
            values: vec![fill.into(); frames * variables],
            rows: vec![fill.into(); frames * 4 * triples],
            word: vec![fill; frames * bits],
        }
    }

    pub fn lend(&mut self) -> Lists<'_> {
        Lists {
            triples: &mut self.triples,
            counts: &mut self.counts,
            sums: &mut self.sums,
            values: &mut self.values,
            rows: &mut self.rows,
            word: &mut self.word,
        }
    }
}

/// The decoder.
pub trait Decoder {
    /// Decodes one frame of costs.
    fn decode(&self, code: &[u8], settings: Settings, costs: &[i16], lists: Lists) -> DecodeAnswer;
}

/// How many entries the work list of a group of so many frames needs: lanes for four frames,
/// or for eight.
pub const fn work_length(frames: usize, bits: usize, variables: usize, triples: usize) -> usize {
    let lanes = if frames <= 4 { 4 } else { 8 };
    lanes * (4 * triples + 3 * variables + 3 * bits)
}

/// Frames of one code, decoded together (document 02, L7).
pub trait Grouping {
    /// Decodes up to eight frames with the same settings. The costs stand one behind the other,
    /// and so do each frame's parts of the lists kept per frame; each frame's answer and parts
    /// are the decoder's. A cost of -32,768 is its frame's alone: 13, and its parts stay.
    fn decode_group(
        &self,
        code: &[u8],
        settings: Settings,
        frames: usize,
        costs: &[i16],
        lists: Lists,
        work: &mut [i32],
    ) -> GroupAnswer;
}

/// The decoder and the calls around it: the entries of document 01, and the sum of
/// words (document 02, L3).
pub trait Library: Decoder {
    /// Reads code records.
    fn read(&self, code: &[u8]) -> CodeAnswer;

    /// Splits the checks of a code into triples; a check of two bits has 0xFFFF in third place.
    fn split(&self, code: &[u8], triples: &mut [u16], counts: &mut [u16]) -> u32;

    /// The channel front: costs of samples.
    fn front(&self, channel: Channel, samples: &[f32], costs: &mut [i16]) -> u32;

    /// Costs negated where the word has 1.
    fn reflect(&self, costs: &[i16], word: &[u8], result: &mut [i16]) -> u32;

    /// Tests whether a word is a codeword.
    fn test(&self, code: &[u8], word: &[u8]) -> WordAnswer;

    /// Extends a codeword to its point.
    fn extend(&self, code: &[u8], word: &[u8], point: &mut [u8]) -> WordAnswer;

    /// The sum of two words modulo 2.
    fn add_words(&self, word: &[u8], other: &[u8], sum: &mut [u8]) -> u32;
}

/// Codes as alist text (document 02, L1).
pub trait Alist {
    /// Code records of an alist text.
    fn import(&self, text: &[u8], code: &mut [u8]) -> BytesAnswer;

    /// The alist text of code records.
    fn export(&self, code: &[u8], text: &mut [u8]) -> BytesAnswer;

    /// How many bytes that text has.
    fn export_size(&self, code: &[u8]) -> BytesAnswer;
}

/// The encoder of codes of at most 256 bits (document 02, L5).
pub trait Encoder {
    /// How many entries a message has: one for each bit that is no pivot.
    fn message_length(&self, code: &[u8]) -> LengthAnswer;

    /// The word of a message.
    fn encode(&self, code: &[u8], message: &[u8], word: &mut [u8]) -> u32;

    /// The words of so many messages; messages and words stand one behind the other.
    fn encode_frames(&self, code: &[u8], frames: usize, messages: &[u8], words: &mut [u8]) -> u32;

    /// The message of a codeword.
    fn read_message(&self, code: &[u8], word: &[u8], message: &mut [u8]) -> WordAnswer;
}
