//! Checks of two bits (document 02, L6).

mod common;

use common::*;
use reference::iteration::{Iterate, Problem, SIGNS, UNIT};
use reference::records::Code;
use reference::run::run;
use reference::splitting::{Split, BLANK};

/// Bits 0 and 1, and bits 1 and 2.
fn path() -> Vec<u8> {
    code(3, &[&[0, 1], &[1, 2]])
}

const COSTS: [i16; 3] = [20_000, -8_000, 5_000];

/// Decodes with the path, W = 256, A = 0 and X = 0.
fn decode_path(limit: u32, costs: [i16; 3]) -> (DecodeAnswer, OwnLists) {
    let mut lent = lists(3, 3, 2);
    let settings = Settings::new(256, 0, limit, 0);
    let answer = SOUND.decode(&path(), settings, &costs, lent.lend());
    (answer, lent)
}

#[test]
fn two_iterations_by_hand() {
    let (answer, lent) = decode_path(1, COSTS);
    // Bit 1 says 1 and the others say 0, so both checks are odd.
    let odd = DecodeAnswer {
        number: 17,
        place: 0,
        k: 1,
        settled: 0,
    };
    assert_eq!(answer, odd);
    assert_eq!(lent.triples, [0, 1, 0xFFFF, 1, 2, 0xFFFF]);
    assert_eq!(lent.counts, [1, 2, 1]);
    assert_eq!(lent.sums, [0, 0, 0]);
    assert_eq!(lent.values, [-5_000, 1_000, -1_250]);
    assert_eq!(lent.rows[..4], [-6_000, 6_000, -28_768, -36_768]);
    assert_eq!(lent.rows[4..], [2_250, -2_250, -32_518, -33_018]);
    assert_eq!(lent.word, [77; 3]);
    let (answer, lent) = decode_path(2, COSTS);
    assert_eq!((answer.number, answer.k, answer.settled), (0, 2, 0));
    assert_eq!(lent.sums, [8_000, 8_500, 500]);
    // -500 / 8 is a half.
    assert_eq!(lent.values, [-7_000, -63, -1_375]);
    assert_eq!(lent.rows[..4], [-6_937, 12_937, -25_705, -39_831]);
    assert_eq!(lent.rows[4..], [3_562, -1_312, -31_330, -34_206]);
    assert_eq!(lent.word, [0, 0, 0]);
}

#[test]
fn reflected_by_hand() {
    let (_, lent) = decode_path(1, COSTS.map(|cost| -cost));
    assert_eq!(lent.values, [5_000, -1_000, 1_250]);
    assert_eq!(lent.rows[..4], [6_000, -6_000, -36_768, -28_768]);
    assert_eq!(lent.rows[4..], [-2_250, 2_250, -33_018, -32_518]);
}

#[test]
fn costs_of_zero_settle() {
    // Of each check two slacks go from 0 to 2U: a total of 4 x 2^30 in the first iteration.
    let settled = |tolerance| {
        let mut lent = lists(3, 3, 2);
        let settings = Settings::new(256, 0, 4_000, tolerance);
        let answer = SOUND.decode(&path(), settings, &[0; 3], lent.lend());
        assert_eq!(lent.rows, [0, 0, -32_768, -32_768].repeat(2));
        (answer.number, answer.k, answer.settled)
    };
    assert_eq!(settled(0), (16, 2, 1));
    assert_eq!(settled(u32::MAX), (16, 2, 1));
}

#[test]
fn degrees_at_the_edges() {
    let all: Vec<usize> = (0..33).collect();
    for (degree, number) in [(0, 4), (1, 4), (2, 0), (32, 0), (33, 4)] {
        let bytes = code(33, &[&all[..degree], &all[..32], &all[1..]]);
        // The last two checks have 32 bits each and name every bit.
        assert_eq!(SOUND.read(&bytes).number, number, "degree {degree}");
        let stream = SOUND.frames(&bytes);
        let due = if number == 4 { "R 4\n" } else { "R 1\n" };
        assert_eq!(stream, due, "degree {degree}");
    }
}

#[test]
fn the_first_cause_of_a_check_of_two_bits() {
    let number = |bytes: &[u8]| SOUND.read(bytes).number;
    let sound = path();
    for length in 0..sound.len() {
        assert_eq!(number(&sound[..length]), 1, "cut at {length}");
    }
    assert_eq!(number(&code(3, &[&[3, 3], &[1, 2]])), 5);
    assert_eq!(number(&code(3, &[&[2, 3], &[1, 2]])), 5);
    assert_eq!(number(&code(3, &[&[2, 2], &[1, 3]])), 6);
    assert_eq!(number(&code(3, &[&[1, 0], &[3, 2]])), 6);
    assert_eq!(number(&code(3, &[&[3], &[1, 2]])), 4);
    assert_eq!(number(&[&header(3, 1)[..], &[0x4C, 0x43, 1]].concat()), 4);
    assert_eq!(number(&[&header(3, 1)[..], &[0x4C, 0x43, 2]].concat()), 1);
    // A third index is no part of the check.
    assert_eq!(
        number(&[&header(3, 1)[..], &[0x4C, 0x43, 2, 0, 0, 0, 1, 0, 2]].concat()),
        9
    );
    assert_eq!(number(&code(2, &[&[0, 1]])), 3);
}

/// Wide checks with 8,190 triples, or for the program with 1,020, and so many of two bits.
fn with_two_bits(wide: usize, two: usize) -> Vec<u8> {
    let all: Vec<usize> = (0..32).collect();
    let checks = [vec![&all[..]; wide], vec![&all[3..5]; two]].concat();
    code(32, &checks)
}

#[test]
fn each_counts_as_one_triple() {
    let answer = SOUND.read(&with_two_bits(273, 2));
    let sizes = (answer.number, answer.checks, answer.triples);
    assert_eq!(sizes, (0, 275, 8_192));
    assert_eq!(SOUND.read(&with_two_bits(273, 3)).number, 7);
    assert_eq!(SOUND.read(&with_two_bits(1, 2_047)).triples, 2_077);
    let two: &[usize] = &[0, 2];
    let answer = SOUND.read(&code(3, &[vec![two; 2_047], vec![&[0, 1]]].concat()));
    assert_eq!((answer.number, answer.triples), (0, 2_048));
}

#[test]
fn each_counts_as_one_triple_in_the_program() {
    let settings = [0x4C, 0x53, 1, 0, 0, 0, 0, 2, 0, 0, 0, 0];
    let printed = |two| SOUND.frames(&[&with_two_bits(34, two)[..], &settings].concat());
    assert_eq!(printed(4), "");
    assert_eq!(printed(5), "R 10\n");
    // The check that brings too many is judged first.
    let mut bytes = with_two_bits(34, 5);
    let end = bytes.len();
    bytes[end - 1] = 32;
    assert_eq!(SOUND.frames(&bytes), "R 5\n");
    bytes[end - 1] = 3;
    assert_eq!(SOUND.frames(&bytes), "R 6\n");
    bytes[end - 5] = 1;
    assert_eq!(SOUND.frames(&bytes), "R 4\n");
}

#[test]
fn lists_and_their_lengths() {
    // Two bits, five, two: one triple, three, one; no auxiliary, two, none.
    let mixed = code(6, &[&[4, 5], &[0, 1, 2, 3, 4], &[0, 5]]);
    let (mut triples, mut counts) = ([77; 15], [77; 8]);
    assert_eq!(SOUND.split(&mixed, &mut triples, &mut counts), 0);
    assert_eq!(triples[..3], [4, 5, 0xFFFF]);
    assert_eq!(triples[3..12], [0, 1, 6, 2, 3, 7, 4, 6, 7]);
    assert_eq!(triples[12..], [0, 5, 0xFFFF]);
    assert_eq!(counts, [2, 1, 1, 1, 2, 2, 2, 2]);
    assert_eq!(SOUND.split(&mixed, &mut [0; 14], &mut counts), 10);
    assert_eq!(SOUND.split(&mixed, &mut triples, &mut [0; 7]), 10);
    let mut point = [77; 9];
    let word = [1, 0, 1, 1, 1, 1];
    assert_eq!(SOUND.extend(&mixed, &word, &mut point).number, 0);
    assert_eq!(point, [1, 0, 1, 1, 1, 1, 1, 0, 77]);
    let odd = WordAnswer {
        number: 17,
        place: 2,
    };
    assert_eq!(SOUND.test(&mixed, &[0, 1, 1, 1, 1, 1]), odd);
}

/// All codes of so many bits that have a check of two bits and no check twice.
fn all_codes(bits: usize) -> Vec<Code> {
    let is_member = |set: usize, place: usize| set >> place & 1 == 1;
    let sets = (1..1usize << bits).filter(|set| set.count_ones() >= 2);
    let members = |set| (0..bits).filter(|&bit| is_member(set, bit)).collect();
    let checks: Vec<Vec<usize>> = sets.map(members).collect();
    let chosen = |choice: usize| Code {
        bits,
        checks: (0..checks.len())
            .filter(|&place| is_member(choice, place))
            .map(|place| checks[place].clone())
            .collect(),
    };
    (1..1usize << checks.len())
        .map(chosen)
        .filter(|code| code.uses_every_bit() && code.checks.iter().any(|check| check.len() == 2))
        .collect()
}

/// So many entries 0 or 1, from a number's digits.
fn digits(number: usize, length: usize) -> Vec<u8> {
    let digit = |place| (number >> place & 1) as u8;
    (0..length).map(digit).collect()
}

/// Every word of so many bits.
fn words(bits: usize) -> impl Iterator<Item = Vec<u8>> {
    (0..1 << bits).map(move |number| digits(number, bits))
}

/// Whether all four sums of each triple are at most U at the centred values; the blank's is
/// -U.
fn meets_system(split: &Split, point: &[u8]) -> bool {
    let centred = |item: usize| match item {
        BLANK => -UNIT,
        variable => (2 * i64::from(point[variable]) - 1) * UNIT,
    };
    split.triples.iter().all(|triple| {
        let [a, b, c] = triple.map(centred);
        let sums = [a - b - c, -a + b - c, -a - b + c, a + b + c];
        sums.iter().all(|&sum| sum <= UNIT)
    })
}

#[test]
fn one_point_for_each_codeword() {
    let (mut codewords, mut others) = (0, 0);
    for code in all_codes(3).into_iter().chain(all_codes(4)) {
        let split = SOUND.split_code(&code);
        let auxiliaries = split.variables() - code.bits;
        for word in words(code.bits) {
            let points = words(auxiliaries).map(|rest| [&word[..], &rest].concat());
            let meeting: Vec<Vec<u8>> =
                points.filter(|point| meets_system(&split, point)).collect();
            let even = |check: &Vec<usize>| {
                let ones = check.iter().filter(|&&bit| word[bit] == 1);
                ones.count() % 2 == 0
            };
            if code.checks.iter().all(even) {
                assert_eq!(meeting, [SOUND.point_of(&split, &word)], "{code:?}");
                codewords += 1;
            } else {
                assert!(meeting.is_empty(), "{code:?}, {word:?}");
                others += 1;
            }
        }
    }
    assert!(codewords > 2_000 && others > 20_000);
}

/// The iterates of a run.
fn iterates(code: &Code, settings: Settings, costs: &[i16]) -> Vec<Iterate> {
    let problem = Problem::new(SOUND, SOUND.split_code(code), settings, costs);
    let mut iterates = Vec::new();
    run(&problem, &mut |iterate, _| iterates.push(iterate.clone()));
    iterates
}

/// The iterate that a point reflects this one to; the blank keeps its sign.
fn reflected(split: &Split, iterate: &Iterate, point: &[u8]) -> Iterate {
    let sign = |item: usize| match item {
        BLANK => 1,
        variable => 1 - 2 * i64::from(point[variable]),
    };
    let negated = |list: &[i64]| {
        let entries = list.iter().enumerate();
        entries.map(|(place, entry)| sign(place) * entry).collect()
    };
    let mut rows = iterate.rows.clone();
    for (place, triple) in split.triples.iter().enumerate() {
        for (row, signs) in SIGNS.iter().enumerate() {
            let turned = [0, 1, 2].map(|i| sign(triple[i]) * signs[i]);
            let to = SIGNS.iter().position(|signs| *signs == turned);
            rows[place][to.expect("a row with these signs")] = iterate.rows[place][row];
        }
    }
    Iterate {
        sums: negated(&iterate.sums),
        values: negated(&iterate.values),
        rows,
    }
}

/// Fails unless this codeword reflects every iterate of the run.
fn check_reflection(code: &Code, settings: Settings, costs: &[i16], word: &[u8]) {
    let split = SOUND.split_code(code);
    let point = SOUND.point_of(&split, word);
    let mut turned = vec![0; costs.len()];
    assert_eq!(SOUND.reflect(costs, word, &mut turned), 0);
    let first = iterates(code, settings, costs);
    let due: Vec<Iterate> = first
        .iter()
        .map(|iterate| reflected(&split, iterate, &point))
        .collect();
    assert_eq!(iterates(code, settings, &turned), due, "{code:?}, {word:?}");
}

#[test]
fn every_codeword_reflects_every_iterate() {
    const COSTS: [i16; 4] = [20_000, -8_001, 5_003, -2];
    let mut met = 0;
    for code in all_codes(3).into_iter().chain(all_codes(4)) {
        let costs = &COSTS[..code.bits];
        let is_codeword = |word: &Vec<u8>| SOUND.first_odd_check(&code, word).is_none();
        for word in words(code.bits).filter(is_codeword) {
            for (weight, ratio) in [(256, 0), (301, 1_023)] {
                let settings = Settings::new(weight, ratio, 12, 0);
                check_reflection(&code, settings, costs, &word);
            }
            met += usize::from(word.contains(&1));
        }
    }
    assert!(met > 100, "{met}");
}

#[test]
fn the_encoder_takes_them() {
    // Bits 0, 1 and 2 are equal, and bit 3 is their sum: one message bit, bit 3.
    let bytes = code(4, &[&[0, 1], &[1, 2], &[0, 1, 2, 3]]);
    let length = LengthAnswer {
        number: 0,
        length: 1,
    };
    assert_eq!(SOUND.message_length(&bytes), length);
    for entry in [0, 1] {
        let mut word = [77; 4];
        assert_eq!(SOUND.encode(&bytes, &[entry], &mut word), 0);
        assert_eq!(word, [entry; 4]);
        let mut message = [77];
        assert_eq!(SOUND.read_message(&bytes, &word, &mut message).number, 0);
        assert_eq!(message, [entry]);
    }
    let odd = WordAnswer {
        number: 17,
        place: 1,
    };
    assert_eq!(SOUND.read_message(&bytes, &[1, 1, 0, 0], &mut [0]), odd);
}

#[test]
fn texts_with_rows_of_two() {
    let text = b"3 2\n2 2\n1 2 1\n2 2\n1 0\n1 2\n2 0\n1 2\n2 3\n";
    let mut records = vec![77; path().len()];
    let answer = SOUND.import(text, &mut records);
    assert_eq!((answer.number, answer.bytes), (0, path().len()));
    assert_eq!(records, path());
    let mut written = vec![77; text.len()];
    let answer = SOUND.export(&records, &mut written);
    assert_eq!((answer.number, &written[..]), (0, &text[..]));
    let number = |text: &[u8]| SOUND.import(text, &mut [77; 100]).number;
    // A row of one bit, and one of none.
    assert_eq!(number(b"3 2 2 2 1 1 1 1 2 1 0 2 0 2 0 1 0 2 3"), 18);
    assert_eq!(number(b"3 2 1 2 1 1 1 1 2 1 2 2 1 0 2 3"), 4);
    assert_eq!(number(b"3 2 1 3 1 1 1 3 0 1 1 1 1 2 3 0 0 0"), 4);
    // A row of two that does not rise, and one with an index too high.
    assert_eq!(number(b"3 2 2 2 1 2 1 2 2 1 0 1 2 2 0 2 1 2 3"), 6);
    assert_eq!(number(b"3 2 2 2 1 2 1 2 2 1 0 1 2 2 0 1 2 2 4"), 19);
}
