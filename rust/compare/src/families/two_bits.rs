//! Checks of two bits, alone and among others, for every entry.

use super::decoding::{exact_tolerance_of, other_lengths_of, run_of};
use super::exports::export_of;
use super::long_runs::strained_run_of;
use super::programs::{
    cut_everywhere, damaged_records_of, damaged_stream_of, input_of, stream_of, whole, LISTED,
};
use super::records::{about, calls as calls_of, damage_pairs_of, damaged};
use super::words::{every_word_of, word_of};
use super::{encoder, imports, programs, Family};
use crate::case::{exact_case, Case, DecodeCase};
use crate::codes::{check_starts, code_of, crowded_code, one_check, records as bytes, Code};
use crate::draft::{wild_costs, Draft, Entry};
use crate::random::Random;
use crate::two_bits::{
    pairs, path, ring, small_two_bit_code, star, strained_pair, straining_pair_costs,
    tiny_two_bit_code, two_bit_code, with_two_bits,
};
use interface::Settings;

/// The families with calls of every entry that takes records.
pub fn records() -> Vec<Family> {
    vec![
        Family::listed("records about checks of two bits", about_two_bits),
        Family::listed("pairs of damages, two bits", || {
            damage_pairs_of(22, small_two_bit_code)
        }),
        Family::listed("two bits and the most triples", most_triples),
        Family::random("damaged codes, two bits", 3_000, |random| {
            let code = tiny_two_bit_code(random);
            damaged(random, code)
        }),
    ]
}

/// The families of the other calls but for import, export and encoder.
pub fn calls() -> Vec<Family> {
    vec![
        Family::listed("checks of two bits by hand", by_hand),
        Family::listed("an entry at the blank's index", long_lists),
        Family::random("runs on tiny codes, two bits", 1_500, |random| {
            run_of(random, tiny_two_bit_code)
        }),
        Family::random("runs on small codes, two bits", 600, |random| {
            run_of(random, small_two_bit_code)
        }),
        Family::random("runs of checks of two bits alone", 400, |random| {
            run_of(random, |random| two_bit_code(random, 60))
        }),
        Family::random("lists of other lengths, two bits", 300, |random| {
            other_lengths_of(random, tiny_two_bit_code)
        }),
        Family::random("totals equal to the tolerance, two bits", 300, |random| {
            exact_tolerance_of(random, tiny_two_bit_code)
        }),
        Family::random("long runs, two bits", 30, long_run),
        Family::random("two bits under strain", 4, strained_run),
        Family::random("many checks of two bits", 6, many_checks),
        Family::listed("runs at the limits, two bits", limits),
        Family::listed("every word, two bits", || {
            every_word_of(23, tiny_two_bit_code)
        }),
        Family::random("test and extension, two bits", 600, |random| {
            word_of(random, small_two_bit_code)
        }),
    ]
}

/// The families of import and export.
pub fn texts() -> Vec<Family> {
    vec![
        Family::listed("pairs of damaged lists, two bits", || {
            imports::damage_pairs_of(24, small_two_bit_code)
        }),
        Family::listed(
            "texts about the most triples, two bits",
            texts_of_most_triples,
        ),
        Family::random("damaged lists, two bits", 1_500, |random| {
            let code = tiny_two_bit_code(random);
            imports::damaged(random, code)
        }),
        Family::random("exports, two bits", 400, |random| {
            let code = small_two_bit_code(random);
            export_of(random, code)
        }),
    ]
}

/// The families of the encoder.
pub fn encoder() -> Vec<Family> {
    vec![
        Family::listed("every message and word, two bits", every_message),
        Family::listed("encoder at the limits, two bits", encoder_limits),
        Family::random("encoder, two bits", 600, |random| {
            encoder::of(random, small_two_bit_code)
        }),
    ]
}

/// The families of the frame program.
pub fn program() -> Vec<Family> {
    vec![
        Family::listed("a path, cut at every byte", path_stream),
        Family::listed("degrees of a stream", stream_degrees),
        Family::listed("the program's room, two bits", program_room),
        Family::random("streams, two bits", 150, |random| Case::Frames {
            input: stream_of(random, tiny_two_bit_code),
        }),
        Family::random("damaged streams, two bits", 200, |random| {
            damaged_stream_of(random, tiny_two_bit_code)
        }),
        Family::random("streams with damaged records, two bits", 300, |random| {
            damaged_records_of(random, tiny_two_bit_code)
        }),
        Family::random("frames of many iterations, two bits", 3, longest_frames),
    ]
}

/// Two bits first, last, beside and on both sides of more bits.
fn small_codes() -> Vec<Code> {
    let code = |bits, checks: &[&[usize]]| Code {
        bits,
        checks: checks.iter().map(|check| check.to_vec()).collect(),
    };
    vec![
        path(3),
        code(4, &[&[0, 1, 2], &[2, 3]]),
        code(5, &[&[0, 4], &[0, 1, 2, 3]]),
        code(5, &[&[0, 1], &[1, 2, 3], &[3, 4]]),
        code(4, &[&[2, 3], &[2, 3], &[0, 1], &[0, 1, 2, 3]]),
    ]
}

/// Indices to put in: that of the blank too.
const INDICES: [u16; 5] = [0, 1, 3, 5, 0xFFFF];

/// Records with another degree, another index, or both in one check, whole and cut there.
fn changed(code: &Code) -> Vec<Vec<u8>> {
    let whole = bytes(code);
    let mut all = Vec::new();
    for (start, check) in check_starts(code).into_iter().zip(&code.checks) {
        for degree in [check.len() as u8, 0, 1, 2, 3, 33] {
            let mut records = whole.clone();
            records[start + 2] = degree;
            all.extend((start..start + 5).map(|length| records[..length].to_vec()));
            for place in (start + 3..).step_by(2).take(check.len()) {
                for index in INDICES {
                    let mut records = records.clone();
                    records[place..place + 2].copy_from_slice(&index.to_be_bytes());
                    all.push(records);
                }
            }
            all.push(records);
        }
    }
    all
}

fn about_two_bits() -> Vec<Case> {
    let mut cases = Vec::new();
    for code in small_codes() {
        let of_each = |records: Vec<u8>| calls_of(&code, &records);
        cases.extend(changed(&code).into_iter().flat_map(of_each));
        cases.extend(about(&code));
    }
    cases
}

/// A code with this many triples, some of them of two bits.
fn with_triples(random: &mut Random, bits: usize, triples: usize, two: usize) -> Code {
    let code = code_of(random, bits, 280, triples - two);
    with_two_bits(random, code, two, bits)
}

/// 8,192 triples and one more, each with checks of two bits; and as many such checks as can be.
fn most_triples() -> Vec<Case> {
    let mut random = Random::new(21);
    let mut codes = Vec::new();
    for (triples, two) in [
        (8_192, 1),
        (8_193, 1),
        (8_192, 2),
        (8_193, 2),
        (8_193, 3),
        (8_192, 300),
        (8_193, 300),
        (8_193, 1_700),
        (8_192, 1_768),
    ] {
        codes.push(with_triples(&mut random, 40, triples, two));
    }
    codes.push(pairs(&mut random, 4_096, 2_048));
    codes.push(pairs(&mut random, 3, 2_048));
    codes.iter().flat_map(about).collect()
}

/// The path of three bits with many costs; other small shapes; two equal checks.
fn by_hand() -> Vec<Case> {
    const COSTS: [i16; 6] = [-20_000, -8_000, -2, 0, 3, 5_000];
    let case = |code: &Code, limit, costs: &[i16]| {
        exact_case(code, Settings::new(256, 0, limit, 0), costs.to_vec())
    };
    let mut cases = Vec::new();
    for first in COSTS {
        for second in COSTS {
            for third in COSTS {
                let costs = [first, second, third];
                cases.extend((1..=4).map(|limit| case(&path(3), limit, &costs)));
            }
        }
    }
    let mut equal = path(4);
    equal.checks.extend(path(4).checks);
    let mut codes = small_codes();
    codes.push(equal);
    for bits in [3, 4, 7, 20] {
        codes.extend([path(bits), ring(bits), star(bits, 0), star(bits, bits - 1)]);
    }
    let costs = [20_000, -8_000, 5_000, -1, 0].repeat(4);
    for code in codes {
        for limit in [1, 2, 3, 10, 100] {
            cases.push(case(&code, limit, &costs[..code.bits]));
        }
    }
    cases
}

/// Lists so long that they have an entry at the blank's index, which is left as it was.
fn long_lists() -> Vec<Case> {
    const LONG: usize = 0xFFFF + 3;
    let codes = small_codes().into_iter().chain([path(3), ring(5)]);
    let cases = codes.flat_map(|code| {
        let run = DecodeCase {
            code: bytes(&code),
            settings: Settings::new(256, 0, 3, 0),
            costs: vec![-900; code.bits],
            room: [LONG; 6],
        };
        let split = Case::Split {
            code: bytes(&code),
            room: [LONG; 2],
        };
        let extend = Case::Extend {
            code: bytes(&code),
            word: vec![0; code.bits],
            room: LONG,
        };
        [Case::Decode(run), split, extend]
    });
    cases.collect()
}

/// To the most iterations, with weak costs or the strongest.
pub fn long_run(random: &mut Random) -> Case {
    let mut draft = Draft::random(random, tiny_two_bit_code);
    let (weight, most, ratio) = random.pick(&[
        (1, 32_767, 0),
        (16, 300, 0),
        (65_535, 32_767, 0),
        (65_535, 32_767, 512),
        (65_535, 32_767, 1_023),
    ]);
    let limit = random.pick(&[1_001, 3_999, 4_000, 4_000]);
    draft.settings = Settings::new(weight, ratio, limit, 0);
    draft.costs = wild_costs(random, draft.code.bits, most);
    draft.case(Entry::Decode)
}

pub fn strained_run(random: &mut Random) -> Case {
    let code = strained_pair(random.between(3, 31));
    strained_run_of(random, &code, straining_pair_costs)
}

/// As many checks as can be, with any settings.
pub fn many_checks(random: &mut Random) -> Case {
    run_of(random, |random| match random.below(3) {
        0 => {
            let bits = random.between(3, 2_049);
            crowded_code(random, bits, 2_048, 2)
        }
        1 => {
            let bits = random.between(3, 4_096);
            pairs(random, bits, 2_048)
        }
        _ => {
            let bits = random.between(32, 1_000);
            with_triples(random, bits, 8_192, 1_500)
        }
    })
}

/// Codes at their limits: the most checks of two bits, over the most bits, over three and all of
/// one bit; and the most triples.
fn limits() -> Vec<Case> {
    let random = &mut Random::new(25);
    let mut codes = vec![
        (pairs(random, 4_096, 2_048), 100),
        (pairs(random, 1_024, 2_048), 100),
        (pairs(random, 3, 2_048), 1_001),
        (star(2_049, 0), 300),
        (crowded_code(random, 3, 2_048, 2), 300),
        (crowded_code(random, 1_500, 2_048, 2), 100),
        (crowded_code(random, 2_000, 2_048, 2), 50),
        (ring(2_048), 300),
        (path(2_049), 100),
    ];
    for two in [1, 2, 30, 1_000, 1_768] {
        codes.push((with_triples(random, 300, 8_192, two), 20));
    }
    let mut cases = Vec::new();
    for (code, limit) in codes {
        for (weight, ratio) in [(65_535, 0), (8_000, 150), (300, 1_023)] {
            let costs = wild_costs(random, code.bits, 32_767);
            let settings = Settings::new(weight, ratio, limit, 0);
            cases.push(exact_case(&code, settings, costs));
        }
    }
    cases
}

/// About the most triples, with checks of two bits in front of other damage.
fn texts_of_most_triples() -> Vec<Case> {
    let mut random = Random::new(26);
    let mut case = |_| {
        let bits = random.between(32, 50);
        let two = random.pick(&[1, 2, 200]);
        let triples = random.pick(&[8_192, 8_193, 8_193, 8_194, 8_200]);
        let code = with_triples(&mut random, bits, triples, two);
        imports::damaged_most_triples(&mut random, &code)
    };
    (0..150).map(&mut case).collect()
}

fn every_message() -> Vec<Case> {
    let mut random = Random::new(27);
    let mut codes = small_codes();
    codes.extend([ring(3), ring(8), star(5, 2)]);
    codes.extend((0..12).map(|_| tiny_two_bit_code(&mut random)));
    codes.iter().flat_map(encoder::all_of).collect()
}

/// Up to 256 bits and more, with up to 2,048 checks of two bits.
fn encoder_limits() -> Vec<Case> {
    let random = &mut Random::new(28);
    let codes = vec![
        path(256),
        path(257),
        ring(256),
        ring(257),
        star(256, 255),
        pairs(random, 256, 128),
        pairs(random, 257, 200),
        pairs(random, 256, 2_048),
        with_triples(random, 256, 8_192, 1_000),
    ];
    let calls = |code: Code| encoder::calls(random, code);
    codes.into_iter().flat_map(calls).collect()
}

/// The path of three bits with the settings and the costs of the figures by hand.
fn path_stream() -> Vec<Case> {
    let costs = [20_000, -8_000, 5_000];
    let frames = [costs, costs.map(|cost| -cost), [0; 3], [i16::MIN; 3]].map(Vec::from);
    cut_everywhere(&input_of(&path(3), LISTED, &frames))
}

/// Records with another degree, another index, or both, with settings and a frame after them.
fn stream_degrees() -> Vec<Case> {
    let mut cases = Vec::new();
    for code in small_codes() {
        let end = bytes(&code).len();
        let after = &input_of(&code, LISTED, &[vec![100; code.bits]])[end..];
        cases.extend(changed(&code).into_iter().map(|records| Case::Frames {
            input: match records.len() == end {
                true => [&records, after].concat(),
                false => records,
            },
        }));
    }
    cases
}

/// Exactly 1,024 triples and one more, with checks of two bits alone, first, last and anywhere.
fn program_room() -> Vec<Case> {
    let mut random = Random::new(29);
    let mut codes = vec![
        pairs(&mut random, 512, 1_024),
        pairs(&mut random, 512, 1_025),
        pairs(&mut random, 3, 1_024),
        pairs(&mut random, 3, 1_025),
        pairs(&mut random, 513, 1_024),
    ];
    for two in [4, 5] {
        for first in [true, false] {
            let wide = vec![one_check(32).checks[0].clone(); 34];
            let narrow = vec![vec![3, 5]; two];
            let checks = match first {
                true => [narrow, wide].concat(),
                false => [wide, narrow].concat(),
            };
            codes.push(Code { bits: 32, checks });
        }
    }
    for triples in [1_023, 1_024, 1_025] {
        let code = code_of(&mut random, 300, 200, triples - 100);
        codes.push(with_two_bits(&mut random, code, 100, 300));
    }
    codes.iter().flat_map(programs::about).collect()
}

/// Weak costs, and those under strain.
fn longest_frames(random: &mut Random) -> Case {
    let code = strained_pair(random.between(3, 20));
    let frames = [
        wild_costs(random, code.bits, 300),
        straining_pair_costs(random, &code, 20_000),
    ];
    let (weight, ratio) = random.pick(&[(16, 0), (65_535, 150)]);
    whole(&code, Settings::new(weight, ratio, 4_000, 0), &frames)
}
