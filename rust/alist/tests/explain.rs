//! The place that explains import's number: the number is the reference's on
//! many texts, and the place is the first wrong one.

mod common;

use alist::{explain, place};
use common::{damaged, hamming, import, lines_of, text_of, written};
use compare::case::Case;
use compare::codes::{code_of, small_code, tiny_code, Code};
use compare::families::{conversions, Effort};
use compare::random::Random;
use compare::two_bits::with_two_bits;
use std::collections::BTreeMap;
use std::convert::Infallible;

/// Compares the number of one text, and counts it.
fn compare(text: &[u8], tally: &mut BTreeMap<u32, usize>) {
    let number = explain(text).map_or(0, |fault| fault.number);
    let shown = String::from_utf8_lossy(text);
    assert_eq!(number, import(text).0, "{shown}");
    *tally.entry(number).or_default() += 1;
}

/// A code with something wrong in its rows.
fn unsound(random: &mut Random) -> Code {
    let mut code = tiny_code(random);
    let row = random.below(code.checks.len());
    match random.below(5) {
        0 => code.bits += 1,
        1 => code.checks[row].truncate(random.below(2)),
        2 => code.checks[row].reverse(),
        3 => {
            let bit = code.checks[row][0];
            code.checks[row].insert(0, bit);
        }
        _ => code.checks.clear(),
    }
    code
}

/// A text with one number changed.
fn renumbered(random: &mut Random, text: &str) -> String {
    let mut lines = lines_of(text);
    let line = random.below(lines.len());
    let count = lines[line].len();
    match random.below(4) {
        0 => drop(lines[line].pop()),
        1 => lines[line].push(random.below(4)),
        2 if count > 1 => lines[line].swap(0, 1),
        _ if count > 0 => lines[line][random.below(count)] = random.below(9),
        _ => {}
    }
    written(&lines)
}

#[test]
fn the_number_is_the_librarys() {
    let mut random = Random::new(1);
    let mut tally = BTreeMap::new();
    for _ in 0..2_000 {
        let text = text_of(&tiny_code(&mut random));
        compare(text.as_bytes(), &mut tally);
        compare(&damaged(&mut random, text.as_bytes()), &mut tally);
        compare(renumbered(&mut random, &text).as_bytes(), &mut tally);
        compare(text_of(&unsound(&mut random)).as_bytes(), &mut tally);
        let text = text_of(&small_code(&mut random));
        compare(renumbered(&mut random, &text).as_bytes(), &mut tally);
    }
    for (bits, checks, triples) in [(4_097, 200, 4_000), (900, 274, 8_193), (900, 274, 8_192)] {
        let code = code_of(&mut random, bits, checks, triples);
        compare(text_of(&code).as_bytes(), &mut tally);
    }
    // The last check of two bits is one triple too many.
    for two in [1, 2] {
        let code = code_of(&mut random, 900, 274, 8_191);
        let code = with_two_bits(&mut random, code, two, 900);
        compare(text_of(&code).as_bytes(), &mut tally);
    }
    for number in [0, 18, 19, 3, 4, 6, 8] {
        assert!(tally.get(&number) > Some(&20), "{number}: {tally:?}");
    }
    assert_eq!(tally.get(&7), Some(&2));
}

/// Rows of no bit and of one are refused where their degree stands, one of two is not.
#[test]
fn the_least_degree() {
    let told = |row: &[usize]| {
        let code = Code {
            bits: 3,
            checks: vec![vec![0, 1, 2], row.to_vec()],
        };
        let text = text_of(&code);
        let fault = explain(text.as_bytes())?;
        let place = place(text.as_bytes(), fault.at);
        Some(format!("{place} {}: {}", fault.number, fault.what))
    };
    let due = |degree| format!("4:3 4: row 2 has degree {degree}; 2 to 32 are allowed");
    assert_eq!(told(&[]), Some(due(0)));
    assert_eq!(told(&[1]), Some(due(1)));
    assert_eq!(told(&[1, 2]), None);
}

/// The texts with which the library is compared.
#[test]
fn the_number_is_the_librarys_on_the_families_of_the_comparison() {
    let mut tally = BTreeMap::new();
    for family in conversions() {
        let Ok(()) = family.visit(Effort::Quick, |_, case| {
            if let Case::Import { text, .. } = case {
                compare(&text, &mut tally);
            }
            Ok::<(), Infallible>(())
        });
    }
    for number in [0, 18, 19, 3, 4, 6, 7, 8] {
        assert!(tally.get(&number) >= Some(&20), "{number}: {tally:?}");
    }
}

#[test]
fn any_bytes_are_explained() {
    let mut random = Random::new(2);
    let mut tally = BTreeMap::new();
    for _ in 0..20_000 {
        let length = random.below(40);
        let digits: Vec<u8> = (0..length).map(|_| random.pick(b"00123 \n")).collect();
        let bytes: Vec<u8> = (0..length).map(|_| random.any() as u8).collect();
        compare(&digits, &mut tally);
        compare(&bytes, &mut tally);
    }
    assert!(tally.get(&18) > Some(&20_000), "{tally:?}");
}

/// Large sizes need no large tables.
#[test]
fn sizes_are_only_numbers() {
    let mut tally = BTreeMap::new();
    for text in [
        "65535 65535 65535 65535 ",
        "65535 65535 0 0 ",
        "0 0 65535 0",
    ] {
        compare(text.as_bytes(), &mut tally);
    }
    let zeros = "65535 65535 0 0 ".to_string() + &"0 ".repeat(2 * 65_535);
    compare(zeros.as_bytes(), &mut tally);
    assert_eq!(tally, [(3, 1), (18, 3)].into());
}

/// What is told of the Hamming code's text after an edit.
fn told(from: &str, to: &str) -> String {
    let text = text_of(&hamming());
    assert_eq!(text.matches(from).count(), 1, "{from:?}");
    let text = text.replace(from, to);
    let fault = explain(text.as_bytes()).expect("a fault");
    assert_eq!(fault.number, import(text.as_bytes()).0);
    let place = place(text.as_bytes(), fault.at);
    format!("{place} {}: {}", fault.number, fault.what)
}

#[test]
fn the_first_wrong_place_is_told() {
    for (from, to, due) in [
        (
            "7 3\n3 4",
            "7 3\r\n3 4",
            "1:4 18: a line end CR LF stands where only digits, spaces and line feeds may",
        ),
        (
            "7 3\n3 4",
            "7 3\n3\t4",
            "2:2 18: a tab stands where only digits, spaces and line feeds may",
        ),
        (
            "7 3\n3 4",
            "7 3\n3 x4",
            "2:3 18: \"x4\" stands where only digits, spaces and line feeds may",
        ),
        (
            "7 3\n3 4",
            "7 3\n3 70000",
            "2:3 18: \"70000\" is above 65535",
        ),
        (
            "7 3\n3 4",
            "7 3\n4 4",
            "2:1 18: the maximum column degree is 4, but the largest column degree is 3",
        ),
        (
            "7 3\n3 4",
            "7 3\n2 4",
            "3:1 18: column 1 has degree 3, but the maximum column degree is 2",
        ),
        (
            "7 3\n3 4",
            "7 3\n3 3",
            "4:1 18: row 1 has degree 4, but the maximum row degree is 3",
        ),
        (
            "4 4 4",
            "4 4",
            "6:5 18: entry 2 of column 2 is 0, but the column has degree 2",
        ),
        (
            "1 2 0",
            "1 2",
            "7:1 18: entry 3 of column 2 is 1 where 0 is due: the column has degree 2",
        ),
        (
            "1 2 0",
            "1 0 2",
            "6:3 18: entry 2 of column 2 is 0, but the column has degree 2",
        ),
        (
            "1 3 4 7\n",
            "1 3 4",
            "14:6 18: the text ends where entry 4 of row 3 is due",
        ),
        (
            "1 3 4 7\n",
            "1 3 4 7\n 8",
            "15:2 18: 8 stands after the last list",
        ),
        (
            "2 3 0",
            "2 1 0",
            "8:3 19: column 4 names row 1, but row 1 does not name column 4",
        ),
        (
            "2 3 0",
            "2 4 0",
            "8:3 19: column 4 names row 4, but the last row is 3",
        ),
        (
            "1 2 3\n",
            "9 8 3\n",
            "5:1 19: column 1 names row 9, but the last row is 3",
        ),
        (
            "1 3 0",
            "1 1 0",
            "7:3 19: column 3 names row 1 more often (2) than row 1 names column 3 (1)",
        ),
        (
            "1 2 4 6",
            "1 2 4 7",
            "10:1 19: column 6 names row 2, but row 2 does not name column 6",
        ),
        (
            "1 2 4 6",
            "6 4 2 1",
            "13:3 6: row 2 does not rise: 4 stands after 6",
        ),
    ] {
        assert_eq!(told(from, to), due);
    }
}
