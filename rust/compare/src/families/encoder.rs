//! The encoder, besides the records that every entry that takes them gets.

use super::Family;
use crate::case::Case;
use crate::codes::{code_of, one_check, records, tiny_code, training_code, Code};
use crate::codewords::Codewords;
use crate::draft::{Draft, OF_ENCODER};
use crate::encoder_codes::{
    crammed_code, dependent, encoded_code, hamming, last_bit_fixed, longest_code, neighbours,
    only_zeros, with_dependent_checks,
};
use crate::random::Random;

pub fn families() -> Vec<Family> {
    vec![
        Family::listed("every message and word of tiny codes", every_message),
        Family::listed("messages at the edges", message_edges),
        Family::listed("words to read at the edges", word_edges),
        Family::listed("frames at the edges", frame_edges),
        Family::listed("messages with one wrong entry", wrong_entries),
        Family::listed("codes about 256 bits", about_256_bits),
        Family::listed("codes of many checks", many_checks),
        Family::random("encoder", 2_000, |random| of(random, encoded_code)),
        Family::random("encoder, few codewords", 300, |random| {
            of(random, crammed_code)
        }),
        Family::random("encoder, 256 bits", 60, |random| of(random, longest_code)),
        Family::random("encoder, many frames", 10, many_frames),
    ]
}

fn length_of(code: &Code) -> usize {
    Codewords::of(code).message_length()
}

/// So many entries 0 or 1, from a number's digits.
fn digits(number: usize, length: usize) -> Vec<u8> {
    (0..length)
        .map(|place| (number >> place & 1) as u8)
        .collect()
}

/// Small codes, one for each way in which checks can depend.
fn small_codes() -> Vec<Code> {
    let mut equal = one_check(3);
    equal.checks = vec![equal.checks[0].clone(); 5];
    vec![
        one_check(3),
        only_zeros(),
        last_bit_fixed(),
        dependent(),
        equal,
        hamming(),
    ]
}

/// All messages of a code alone and as frames of one call, all of its words, and its length.
pub fn all_of(code: &Code) -> Vec<Case> {
    let (bits, length) = (code.bits, length_of(code));
    let code = records(code);
    let messages: Vec<Vec<u8>> = (0..1 << length)
        .map(|number| digits(number, length))
        .collect();
    let mut cases = vec![
        Case::MessageLength { code: code.clone() },
        Case::EncodeFrames {
            code: code.clone(),
            frames: messages.len(),
            messages: messages.concat(),
            room: messages.len() * bits,
        },
    ];
    cases.extend(messages.into_iter().map(|message| Case::Encode {
        code: code.clone(),
        message,
        room: bits,
    }));
    cases.extend((0..1 << bits).map(|number| Case::ReadMessage {
        code: code.clone(),
        word: digits(number, bits),
        room: length,
    }));
    cases
}

fn every_message() -> Vec<Case> {
    let mut random = Random::new(17);
    let mut codes = small_codes();
    for _ in 0..10 {
        let code = tiny_code(&mut random);
        codes.push(with_dependent_checks(&mut random, code.clone()));
        codes.push(code);
    }
    codes.iter().flat_map(all_of).collect()
}

/// Small codes with the lengths of their messages, and one of too many bits.
fn edge_codes() -> Vec<(Code, usize)> {
    let mut codes = small_codes();
    codes.push(neighbours(257));
    let with_length = |code: Code| {
        let length = length_of(&code);
        (code, length)
    };
    codes.into_iter().map(with_length).collect()
}

/// Entries that are 0 but for the last.
fn with_last(length: usize, last: u8) -> Vec<u8> {
    let mut list = vec![0; length];
    list.last_mut().into_iter().for_each(|entry| *entry = last);
    list
}

const LAST: [u8; 4] = [0, 1, 2, 255];

/// Messages too short, right and too long, entries 0 or 1 or others, lists too short or
/// not, each with each.
fn message_edges() -> Vec<Case> {
    let mut cases = Vec::new();
    for (code, length) in edge_codes() {
        let bits = code.bits;
        for (message, last) in (0..length + 3).flat_map(|length| LAST.map(|last| (length, last))) {
            for room in [0, bits - 1, bits, bits + 1] {
                cases.push(Case::Encode {
                    code: records(&code),
                    message: with_last(message, last),
                    room,
                });
            }
        }
    }
    cases
}

/// The same for words, of the code and off it.
fn word_edges() -> Vec<Case> {
    let mut cases = Vec::new();
    for (code, length) in edge_codes() {
        for bits in [0, code.bits - 1, code.bits, code.bits + 1] {
            for last in LAST {
                for room in [0, length.saturating_sub(1), length, length + 1] {
                    cases.push(Case::ReadMessage {
                        code: records(&code),
                        word: with_last(bits, last),
                        room,
                    });
                }
            }
        }
    }
    cases
}

/// Numbers of frames that agree with the messages or do not, some so large that their
/// product with a length is none.
fn frame_edges() -> Vec<Case> {
    const FRAMES: [usize; 8] = [0, 1, 2, 3, 1 << 61, 1 << 62, 1 << 63, usize::MAX];
    let mut cases = Vec::new();
    for (code, length) in edge_codes() {
        let bits = code.bits;
        for frames in FRAMES {
            for messages in [0, 1, length, 2 * length, 2 * length + 1, 3 * length] {
                for last in LAST {
                    for room in [0, bits - 1, bits, 2 * bits - 1, 2 * bits, 3 * bits + 1] {
                        cases.push(Case::EncodeFrames {
                            code: records(&code),
                            frames,
                            messages: with_last(messages, last),
                            room,
                        });
                    }
                }
            }
        }
    }
    cases
}

/// An entry 2 or 255 at each place of the messages of three frames, and of a word.
fn wrong_entries() -> Vec<Case> {
    let mut random = Random::new(18);
    let mut cases = Vec::new();
    for code in [hamming(), dependent(), training_code()] {
        let mut draft = Draft::of(&mut random, code);
        let length = draft.messages.one.len();
        draft.messages.frames = 3;
        draft.messages.room[1] = 3 * draft.code.bits;
        for entry in [2, 255] {
            for (place, case) in (0..3 * length).zip(OF_ENCODER.into_iter().cycle()) {
                let mut draft = draft.clone();
                draft.messages.one = random.word(length);
                draft.messages.all = random.word(3 * length);
                draft.messages.one[place % length] = entry;
                draft.messages.all[place] = entry;
                draft.word[place % length] = entry;
                cases.push(draft.case(case));
            }
        }
    }
    cases
}

/// A call of every entry of the encoder, sound but for the bits, and with something else
/// wrong.
pub fn calls(random: &mut Random, code: Code) -> Vec<Case> {
    let mut draft = Draft::of(random, code);
    let mut cases = OF_ENCODER.map(|entry| draft.case(entry)).to_vec();
    draft.word[0] = 2;
    draft.messages.one.push(2);
    draft.messages.frames += 1;
    cases.extend(OF_ENCODER.map(|entry| draft.case(entry)));
    cases
}

fn about_256_bits() -> Vec<Case> {
    let mut random = Random::new(19);
    let mut cases = Vec::new();
    for bits in [
        63, 64, 65, 127, 128, 129, 254, 255, 256, 257, 258, 300, 4_096,
    ] {
        let checks = bits / 2;
        let code = code_of(&mut random, bits, checks, 2 * checks);
        cases.extend(calls(&mut random, code));
        if bits <= 2_048 {
            cases.extend(calls(&mut random, neighbours(bits)));
        }
    }
    cases
}

/// Codes of many checks, most of which depend on the others.
fn many_checks() -> Vec<Case> {
    let mut random = Random::new(20);
    let mut cases = Vec::new();
    for (bits, checks, triples) in [
        (256, 2_048, 8_192),
        (256, 2_048, 2_048),
        (256, 300, 300),
        (256, 8, 240),
        (200, 2_048, 8_000),
        (32, 273, 8_190),
        (7, 1_639, 8_192),
        (4, 2_048, 4_096),
        (3, 2_048, 2_048),
    ] {
        let code = code_of(&mut random, bits, checks, triples);
        cases.extend(calls(&mut random, code));
    }
    cases
}

/// Some hundreds of frames in one call.
fn many_frames(random: &mut Random) -> Case {
    let code = match random.below(4) {
        0 => only_zeros(),
        1 => training_code(),
        _ => encoded_code(random),
    };
    let frames = random.between(100, 400);
    let needed = frames * code.bits;
    Case::EncodeFrames {
        code: records(&code),
        frames,
        messages: random.word(frames * length_of(&code)),
        room: random.pick(&[needed - 1, needed, needed, needed + 3]),
    }
}

/// A call for a code that is drawn, with lists that are long enough.
pub fn of(random: &mut Random, code: fn(&mut Random) -> Code) -> Case {
    let mut draft = Draft::random(random, code);
    if random.once_in(2) {
        draft.lengthen(random);
    }
    draft.case(random.pick(&OF_ENCODER))
}
