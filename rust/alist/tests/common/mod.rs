//! What the tests share.
#![allow(dead_code)]

use compare::alist::{self, Plan};
use compare::codes::{records, Code};
use compare::random::Random;
use interface::Alist;
use reference::SOUND;

/// A strict text of a code in normal form; columns with no check and rows of any
/// degree are written as they are.
pub fn text_of(code: &Code) -> String {
    written(&Plan::of(code).lines())
}

/// Lines of numbers as text.
pub fn written(lines: &[Vec<usize>]) -> String {
    String::from_utf8(alist::text_of(lines)).expect("digits")
}

/// The numbers of a text's lines.
pub fn lines_of(text: &str) -> Vec<Vec<usize>> {
    let numbers = |line: &str| line.split(' ').map(|word| word.parse().unwrap()).collect();
    text.lines().map(numbers).collect()
}

/// The Hamming code of the examples.
pub fn hamming() -> Code {
    Code {
        bits: 7,
        checks: vec![vec![0, 1, 2, 4], vec![0, 1, 3, 5], vec![0, 2, 3, 6]],
    }
}

/// The reference's number for a text, and the records.
pub fn import(text: &[u8]) -> (u32, Vec<u8>) {
    let mut code = vec![0; text.len()];
    let answer = SOUND.import(text, &mut code);
    code.truncate(answer.bytes);
    (answer.number, code)
}

/// The normal form of a code's text.
pub fn normal(code: &Code) -> Vec<u8> {
    let records = records(code);
    let mut text = vec![0; SOUND.export_size(&records).bytes];
    assert_eq!(SOUND.export(&records, &mut text).number, 0);
    text
}

/// A text with one or more small damages.
pub fn damaged(random: &mut Random, text: &[u8]) -> Vec<u8> {
    let mut text = text.to_vec();
    for _ in 0..random.between(1, 3) {
        if text.is_empty() {
            break;
        }
        let at = random.below(text.len());
        match random.below(6) {
            0 => text[at] = random.pick(b"0123456789 \n\t\r"),
            1 => text.insert(at, random.pick(b"0123456789 \n\t\r\0#+-")),
            2 => drop(text.remove(at)),
            3 => text.truncate(at),
            4 => text[at] = random.any() as u8,
            _ => {
                let other = random.below(text.len());
                text.swap(at, other);
            }
        }
    }
    text
}
