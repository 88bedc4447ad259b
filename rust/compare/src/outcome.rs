//! What a call left: its answer and every lent list, with the memory around it.

use crate::case::{Case, DecodeCase, GroupCase};
use crate::codes::{room, Code};
use crate::margins::{bytes, costs, rows, shorts, LentLists, Seen, MARGIN};
use interface::{
    Alist, BytesAnswer, DecodeAnswer, Decoder, Encoder, Grouping, Library, WordAnswer,
};
use reference::Reference;

/// The answer's fields and the lists after a call, or what a program printed.
#[derive(Clone, Debug, Default, PartialEq, Eq)]
pub struct Outcome {
    pub fields: Vec<(&'static str, usize)>,
    pub lists: Vec<Seen>,
    pub text: Vec<u8>,
}

impl Outcome {
    fn new(number: u32, others: &[(&'static str, usize)]) -> Outcome {
        Outcome {
            fields: [&[("number", number as usize)], others].concat(),
            ..Outcome::default()
        }
    }

    fn of_word(answer: WordAnswer) -> Outcome {
        Outcome::new(answer.number, &[("place", answer.place)])
    }

    fn of_bytes(answer: BytesAnswer) -> Outcome {
        Outcome::new(answer.number, &[("bytes", answer.bytes)])
    }

    fn with(mut self, list: Seen) -> Outcome {
        self.lists.push(list);
        self
    }

    fn with_all(mut self, lists: [Seen; 6]) -> Outcome {
        self.lists.extend(lists);
        self
    }

    /// The first entries of a lent list.
    pub fn first(&self, name: &str, count: usize) -> &[i64] {
        let mut lists = self.lists.iter();
        let (_, entries) = lists.find(|(other, _)| *other == name).expect("a list");
        &entries[MARGIN..MARGIN + count]
    }

    /// What a group of frames of a code left of one of them, as the decoder leaves it.
    pub fn of_frame(&self, code: &Code, frame: usize) -> Outcome {
        let part = |(place, size): (usize, usize)| {
            let (name, entries) = &self.lists[place];
            let start = if place < 2 { 0 } else { frame * size };
            (*name, entries[start..][..size + 2 * MARGIN].to_vec())
        };
        Outcome {
            fields: self.fields[1 + 4 * frame..][..4].to_vec(),
            lists: room(code).into_iter().enumerate().map(part).collect(),
            text: Vec::new(),
        }
    }

    /// The first difference from what was expected.
    pub fn difference(&self, expected: &Outcome) -> Option<String> {
        for ((name, found), (_, due)) in self.fields.iter().zip(&expected.fields) {
            if found != due {
                return Some(format!("{name}: {due} expected, {found} found"));
            }
        }
        for ((name, found), (_, due)) in self.lists.iter().zip(&expected.lists) {
            if let Some(place) = (0..due.len()).find(|&place| found[place] != due[place]) {
                let entry = place as i64 - MARGIN as i64;
                let (due, found) = (due[place], found[place]);
                return Some(format!("{name}[{entry}]: {due} expected, {found} found"));
            }
        }
        if self.text != expected.text {
            let [due, found] =
                [&expected.text, &self.text].map(|text| String::from_utf8_lossy(text));
            return Some(format!("output: {due:?} expected, {found:?} found"));
        }
        None
    }
}

/// What a case leaves with the reference, which has every entry.
pub fn outcome(reference: Reference, case: &Case) -> Outcome {
    called(&reference, case)
        .or_else(|| grouped(&reference, case))
        .or_else(|| converted(&reference, case))
        .or_else(|| encoded(&reference, case))
        .or_else(|| printed(|input| reference.frames(input).into(), case))
        .expect("a case is a call or an input")
}

/// What a case leaves with a frame program; nothing unless it is an input.
pub fn printed(frames: impl Fn(&[u8]) -> Vec<u8>, case: &Case) -> Option<Outcome> {
    match case {
        Case::Frames { input } => Some(Outcome {
            text: frames(input),
            ..Outcome::default()
        }),
        _ => None,
    }
}

/// What a case leaves with a decoder; nothing unless it is a call of that.
pub fn decoded(decoder: &dyn Decoder, case: &Case) -> Option<Outcome> {
    match case {
        Case::Decode(case) => Some(decode(decoder, case)),
        _ => None,
    }
}

/// What a case leaves with one who decodes groups; nothing unless it is a call of that.
pub fn grouped(grouping: &dyn Grouping, case: &Case) -> Option<Outcome> {
    match case {
        Case::DecodeGroup(case) => Some(decode_group(grouping, case)),
        _ => None,
    }
}

/// What a case leaves with one who has import and export; nothing unless it is a
/// call of these.
pub fn converted(alist: &dyn Alist, case: &Case) -> Option<Outcome> {
    match case {
        Case::Import { text, room } => {
            let mut code = bytes(*room);
            let answer = alist.import(text, code.list());
            Some(Outcome::of_bytes(answer).with(code.seen("code")))
        }
        Case::Export { code, room } => {
            let mut text = bytes(*room);
            let answer = alist.export(code, text.list());
            Some(Outcome::of_bytes(answer).with(text.seen("text")))
        }
        Case::ExportSize { code } => Some(Outcome::of_bytes(alist.export_size(code))),
        _ => None,
    }
}

/// What a case leaves with an encoder; nothing unless it is a call of that.
pub fn encoded(encoder: &dyn Encoder, case: &Case) -> Option<Outcome> {
    Some(match case {
        Case::MessageLength { code } => {
            let answer = encoder.message_length(code);
            Outcome::new(answer.number, &[("length", answer.length)])
        }
        Case::Encode {
            code,
            message,
            room,
        } => {
            let mut word = bytes(*room);
            let number = encoder.encode(code, message, word.list());
            Outcome::new(number, &[]).with(word.seen("word"))
        }
        Case::EncodeFrames {
            code,
            frames,
            messages,
            room,
        } => {
            let mut words = bytes(*room);
            let number = encoder.encode_frames(code, *frames, messages, words.list());
            Outcome::new(number, &[]).with(words.seen("words"))
        }
        Case::ReadMessage { code, word, room } => {
            let mut message = bytes(*room);
            let answer = encoder.read_message(code, word, message.list());
            Outcome::of_word(answer).with(message.seen("message"))
        }
        _ => return None,
    })
}

/// What a case leaves with a library; nothing unless it is a call of `Library`.
pub fn called(library: &dyn Library, case: &Case) -> Option<Outcome> {
    Some(match case {
        Case::Read { code } => {
            let answer = library.read(code);
            let sizes = [
                ("bits", answer.bits),
                ("checks", answer.checks),
                ("triples", answer.triples),
            ];
            Outcome::new(answer.number, &sizes)
        }
        Case::Split { code, room } => {
            let (mut triples, mut counts) = (shorts(room[0]), shorts(room[1]));
            let number = library.split(code, triples.list(), counts.list());
            Outcome::new(number, &[])
                .with(triples.seen("triples"))
                .with(counts.seen("counts"))
        }
        Case::Front {
            channel,
            samples,
            room,
        } => {
            let mut result = costs(*room);
            let number = library.front(*channel, samples, result.list());
            Outcome::new(number, &[]).with(result.seen("costs"))
        }
        Case::Reflect {
            costs: given,
            word,
            room,
        } => {
            let mut result = costs(*room);
            let number = library.reflect(given, word, result.list());
            Outcome::new(number, &[]).with(result.seen("result"))
        }
        Case::Test { code, word } => Outcome::of_word(library.test(code, word)),
        Case::Extend { code, word, room } => {
            let mut point = bytes(*room);
            let answer = library.extend(code, word, point.list());
            Outcome::of_word(answer).with(point.seen("point"))
        }
        Case::AddWords { word, other, room } => {
            let mut sum = bytes(*room);
            let number = library.add_words(word, other, sum.list());
            Outcome::new(number, &[]).with(sum.seen("sum"))
        }
        Case::Decode(case) => decode(library, case),
        _ => return None,
    })
}

fn decode(decoder: &dyn Decoder, case: &DecodeCase) -> Outcome {
    let mut lists = LentLists::new(case.room);
    let answer = decoder.decode(&case.code, case.settings, &case.costs, lists.lend());
    let others = [
        ("place", answer.place),
        ("k", answer.k as usize),
        ("settled", answer.settled as usize),
    ];
    Outcome::new(answer.number, &others).with_all(lists.seen())
}

/// The fields of a frame's answer in a group, by their names.
macro_rules! of_frames {
    ($($frame:literal),+) => {
        [$([
            concat!("number of frame ", $frame),
            concat!("place of frame ", $frame),
            concat!("k of frame ", $frame),
            concat!("settled of frame ", $frame),
        ]),+]
    };
}

const OF_FRAMES: [[&str; 4]; 8] = of_frames!(0, 1, 2, 3, 4, 5, 6, 7);

fn fields_of(answer: DecodeAnswer) -> [usize; 4] {
    [
        answer.number as usize,
        answer.place,
        answer.k as usize,
        answer.settled as usize,
    ]
}

/// What an accepted group leaves in the work list is open; else it stays.
fn decode_group(grouping: &dyn Grouping, case: &GroupCase) -> Outcome {
    let [room @ .., for_work] = case.room;
    let (mut lists, mut work) = (LentLists::new(room), rows(for_work));
    let answer = grouping.decode_group(
        &case.code,
        case.settings,
        case.frames,
        &case.costs,
        lists.lend(),
        work.list(),
    );
    let frames = OF_FRAMES.iter().zip(answer.frames.map(fields_of));
    let fields = frames.flat_map(|(names, fields)| names.iter().copied().zip(fields));
    let mut fields: Vec<(&'static str, usize)> = fields.collect();
    let changed = work.changed(answer.number != 0);
    fields.push(("entries changed in or around the work list", changed));
    Outcome::new(answer.number, &fields).with_all(lists.seen())
}
