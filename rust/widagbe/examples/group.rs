//! Decodes four frames of the Hamming code of 7 bits in one call. One of them has a cost of
//! -32,768; the others are decoded all the same.
//!
//!     cargo run --release --offline -p widagbe --example group

use std::fmt::Write;
use widagbe::{work_length, Grouping, Library, OwnLists, Settings, Widagbe, MOST_FRAMES};

/// 7 bits, 3 checks of degree 4.
const CODE: [u8; 39] = [
    0x4c, 0x48, 0, 7, 0, 3, // n = 7, m = 3
    0x4c, 0x43, 4, 0, 0, 0, 1, 0, 2, 0, 4, // bits 0, 1, 2, 4
    0x4c, 0x43, 4, 0, 0, 0, 1, 0, 3, 0, 5, // bits 0, 1, 3, 5
    0x4c, 0x43, 4, 0, 0, 0, 2, 0, 3, 0, 6, // bits 0, 2, 3, 6
];

/// The codeword 1011001 with bit 4 received as 1, the codeword 1000111, a cost that is refused,
/// and nothing received.
const FRAMES: [[i16; 7]; 4] = [
    [-900, 1100, -1200, -800, -100, 700, -1000],
    [-700, 800, 1200, 300, -900, -1000, -800],
    [-900, 1100, i16::MIN, -800, -100, 700, 0],
    [0; 7],
];

const SETTINGS: Settings = Settings::new(8_000, 150, 300, 1_000_000);

fn main() {
    print!("{}", report());
}

/// What the example prints.
pub fn report() -> String {
    let mut text = String::new();
    let sizes = Widagbe.read(&CODE);
    assert_eq!(sizes.number, 0, "the code is sound");
    let (n, t, count) = (sizes.bits, sizes.triples, FRAMES.len());
    let v = n + t - sizes.checks;

    // The frames stand one behind the other, in the costs and in the lists kept per frame.
    let costs = FRAMES.concat();
    let mut lists = OwnLists::exact_group(count, n, v, t, 0);
    let mut work = vec![0; work_length(count, n, v, t)];
    let group = Widagbe.decode_group(&CODE, SETTINGS, count, &costs, lists.lend(), &mut work);
    let _ = writeln!(text, "group: number {}", group.number);
    for (frame, word) in lists.word.chunks_exact(n).enumerate() {
        let answer = group.frames[frame];
        let _ = write!(
            text,
            "frame {frame}: number {}, place {}, {} iterations",
            answer.number, answer.place, answer.k
        );
        if answer.number == 0 {
            let bits: String = word.iter().map(u8::to_string).collect();
            let _ = write!(text, ", word {bits}");
        }
        text.push('\n');
    }

    // A group of more than eight frames is refused, and so is one of none.
    let more = MOST_FRAMES + 1;
    let refused = Widagbe.decode_group(&CODE, SETTINGS, more, &costs, lists.lend(), &mut work);
    let _ = writeln!(text, "with nine frames: number {}", refused.number);
    text
}
