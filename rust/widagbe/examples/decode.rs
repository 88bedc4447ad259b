//! Decodes one frame of the Hamming code of 7 bits from noisy samples.
//!
//!     cargo run --release --offline -p widagbe --example decode

use std::fmt::Write;
use widagbe::{Channel, Decoder, Library, OwnLists, Settings, Widagbe};

/// 7 bits, 3 checks of degree 4.
const CODE: [u8; 39] = [
    0x4c, 0x48, 0, 7, 0, 3, // n = 7, m = 3
    0x4c, 0x43, 4, 0, 0, 0, 1, 0, 2, 0, 4, // bits 0, 1, 2, 4
    0x4c, 0x43, 4, 0, 0, 0, 1, 0, 3, 0, 5, // bits 0, 1, 3, 5
    0x4c, 0x43, 4, 0, 0, 0, 2, 0, 3, 0, 6, // bits 0, 2, 3, 6
];

/// The codeword 1011001, sent as -1 for 1 and +1 for 0, with noise: bit 4 is
/// received as 1.
const SAMPLES: [f32; 7] = [-0.9, 1.1, -1.2, -0.8, -0.1, 0.7, -1.0];

pub const SETTINGS: Settings = Settings {
    weight: 8_000,
    ratio: 150,
    limit: 300,
    tolerance: 1_000_000,
};

fn main() {
    print!("{}", report());
}

/// What the example prints.
pub fn report() -> String {
    let mut text = String::new();
    let sizes = Widagbe.read(&CODE);
    assert_eq!(sizes.number, 0, "the code is sound");
    let (n, m, t) = (sizes.bits, sizes.checks, sizes.triples);
    let v = n + t - m;
    let _ = writeln!(
        text,
        "code: {n} bits, {m} checks, {t} triples, {v} variables"
    );

    let mut costs = [0; SAMPLES.len()];
    let channel = Channel::Gaussian(1000.0);
    assert_eq!(Widagbe.front(channel, &SAMPLES, &mut costs), 0);
    let _ = writeln!(text, "costs: {}", costs.map(|c| c.to_string()).join(" "));

    let mut lists = OwnLists::exact(n, v, t, 0);
    let answer = Widagbe.decode(&CODE, SETTINGS, &costs, lists.lend());
    // A list that is too short is refused, and all lists stay as they were.
    let mut short = lists.clone();
    short.triples.pop();
    let before = short.clone();
    let refused = Widagbe.decode(&CODE, SETTINGS, &costs, short.lend());
    assert_eq!(short, before);

    let settled = ["not settled", "settled"][answer.settled as usize];
    let _ = writeln!(
        text,
        "decoded: number {}, place {}, {} iterations, {settled}",
        answer.number, answer.place, answer.k
    );
    if answer.number == 0 {
        let bits: String = lists.word.iter().map(u8::to_string).collect();
        let _ = writeln!(text, "word: {bits}");
    }
    let _ = writeln!(text, "with a list too short: number {}", refused.number);
    text
}
