//! Repairs: files as they come yield the normal form of the same code, each kind
//! of change is told, and what is ambiguous is refused.

mod common;

use alist::{place, repair, Repaired};
use common::{damaged, hamming, import, lines_of, normal, text_of, written};
use compare::codes::{records, small_code, tiny_code, training_code, Code};
use compare::random::Random;

/// A way in which files differ from strict text.
type Variant = fn(&mut Random, &str) -> String;

fn returns(_: &mut Random, text: &str) -> String {
    text.replace('\n', "\r\n")
}

fn lone_returns(_: &mut Random, text: &str) -> String {
    text.replace('\n', "\r")
}

fn tabs(random: &mut Random, text: &str) -> String {
    let blank = |byte| match byte {
        ' ' => random.pick(&[' ', '\t', '\x0B', '\x0C']),
        other => other,
    };
    text.chars().map(blank).collect()
}

fn byte_order_mark(_: &mut Random, text: &str) -> String {
    format!("\u{FEFF}{}", text.trim_start_matches('\u{FEFF}'))
}

fn end_marks(random: &mut Random, text: &str) -> String {
    text.to_string() + random.pick(&["\0", "\x1A", "\x1A\r\n\0\0", "\0 \n"])
}

fn comments(_: &mut Random, text: &str) -> String {
    format!("# a code of 2019\n{text}\n\t# the end, with π\n")
}

fn blanks(random: &mut Random, text: &str) -> String {
    let wide = |byte| match byte {
        ' ' => " ".repeat(random.between(1, 3)),
        '\n' => random.pick(&["\n", " \n", "\n\n", "\n "]).to_string(),
        other => other.to_string(),
    };
    text.chars().map(wide).collect()
}

fn no_last_line_end(_: &mut Random, text: &str) -> String {
    text.trim_end().to_string()
}

/// Without some or all of the fill.
fn no_fill(random: &mut Random, text: &str) -> String {
    let mut lines = lines_of(text);
    let some = random.once_in(2);
    for line in lines.iter_mut().skip(4) {
        while line.last() == Some(&0) && !(some && random.once_in(3)) {
            line.pop();
        }
    }
    written(&lines)
}

fn more_fill(random: &mut Random, text: &str) -> String {
    let mut lines = lines_of(text);
    for line in lines.iter_mut().skip(4) {
        line.extend(vec![0; random.below(3)]);
    }
    written(&lines)
}

fn wrong_maxima(random: &mut Random, text: &str) -> String {
    let mut lines = lines_of(text);
    lines[1] = vec![random.below(50), random.below(50)];
    written(&lines)
}

fn no_rows(_: &mut Random, text: &str) -> String {
    let lines = lines_of(text);
    written(&lines[..4 + lines[0][0]])
}

/// Lists in another order, with their fill where it is.
fn unsorted(random: &mut Random, text: &str) -> String {
    let mut lines = lines_of(text);
    for line in lines.iter_mut().skip(4) {
        let degree = line.iter().filter(|&&index| index > 0).count();
        match random.below(3) {
            0 => line[..degree].reverse(),
            1 => random.shuffle(&mut line[..degree]),
            _ => {}
        }
    }
    written(&lines)
}

/// The same numbers on other lines.
fn wrapped(random: &mut Random, text: &str) -> String {
    let blank = |byte| match byte {
        ' ' | '\n' => random.pick(&[' ', ' ', '\n']),
        other => other,
    };
    text.chars().map(blank).collect()
}

fn leading_zeros(random: &mut Random, text: &str) -> String {
    let word = |word: &str| match random.below(4) {
        0 if word.starts_with(|byte: char| byte.is_ascii_digit()) => format!("00{word}"),
        _ => word.to_string(),
    };
    text.split_inclusive([' ', '\n']).map(word).collect()
}

/// Variants of lists, then variants of lines, then variants of bytes.
const OF_LISTS: [Variant; 6] = [no_fill, more_fill, wrong_maxima, no_rows, unsorted, wrapped];
const OF_LINES: [Variant; 4] = [leading_zeros, blanks, comments, no_last_line_end];
const OF_BYTES: [Variant; 5] = [tabs, returns, lone_returns, end_marks, byte_order_mark];

/// The repaired text's records and normal form are the code's.
fn check(code: &Code, text: &[u8]) -> Repaired {
    let shown = String::from_utf8_lossy(text);
    let repaired = repair(text).unwrap_or_else(|fault| {
        let place = place(text, fault.at);
        panic!("{place}: {}\n{shown}", fault.what)
    });
    assert_eq!(import(&repaired.text), (0, records(code)), "{shown}");
    assert_eq!(repaired.text, normal(code), "{shown}");
    repaired
}

#[test]
fn every_variant_is_repaired() {
    let mut random = Random::new(3);
    for variant in OF_LISTS.into_iter().chain(OF_LINES).chain(OF_BYTES) {
        for code in [hamming(), training_code()] {
            check(&code, variant(&mut random, &text_of(&code)).as_bytes());
        }
        for _ in 0..100 {
            let code = tiny_code(&mut random);
            check(&code, variant(&mut random, &text_of(&code)).as_bytes());
        }
    }
}

#[test]
fn variants_together_are_repaired() {
    let mut random = Random::new(4);
    for _ in 0..2_000 {
        let code = small_code(&mut random);
        let mut text = unsorted(&mut random, &text_of(&code));
        text = random.pick(&OF_LISTS)(&mut random, &text);
        for variants in [&OF_LINES[..], &OF_BYTES[..]] {
            for _ in 0..random.below(3) {
                text = random.pick(variants)(&mut random, &text);
            }
        }
        check(&code, text.as_bytes());
    }
}

#[test]
fn normal_text_needs_no_change() {
    let mut random = Random::new(5);
    for _ in 0..200 {
        let code = small_code(&mut random);
        let repaired = check(&code, &normal(&code));
        assert_eq!(repaired.changes.0, []);
    }
}

/// The changes as lines.
fn changes(text: &str) -> Vec<String> {
    let repaired = check(&hamming(), text.as_bytes());
    let changes = repaired.changes.0.iter();
    let line = |change: &alist::Change| {
        let place = place(text.as_bytes(), change.at);
        format!("{place} {} {}", change.times, change.kind)
    };
    changes.map(line).collect()
}

#[test]
fn every_kind_of_change_is_told() {
    let text = text_of(&hamming());
    let mut random = Random::new(6);
    let mut told = |variant: Variant| changes(&variant(&mut random, &text));
    assert_eq!(told(returns), ["1:4 14 line end CR LF made LF"]);
    assert_eq!(told(lone_returns), ["1:4 14 line end CR made LF"]);
    assert_eq!(told(byte_order_mark), ["1:1 1 byte order mark left out"]);
    assert_eq!(
        told(no_rows),
        ["11:1 3 row made from the columns: the file has no rows"]
    );
    assert_eq!(
        told(no_last_line_end),
        ["14:8 1 spacing made one space, or one line end"]
    );
    assert_eq!(
        changes(&text.replace("7 3\n", "7\t3\n").replace("3 4\n", "3\x0B4\n")),
        [
            "1:2 1 tab made a space",
            "2:2 1 form feed or vertical tab made a space"
        ]
    );
    assert_eq!(
        changes(&(text.clone() + "\x1A\0")),
        ["15:1 2 NUL or Ctrl-Z at the end left out"]
    );
    assert_eq!(
        changes(&("#\n".to_string() + &text))[0],
        "1:1 1 comment line left out"
    );
    assert_eq!(
        changes(&text.replace("3 4\n", "9 2\n").replacen("3 0\n", "3\n", 1)),
        [
            "2:1 1 maximum column degree 9 made 3",
            "2:3 1 maximum row degree 2 made 4",
            "7:4 1 0 added as fill"
        ]
    );
    assert_eq!(
        changes(&text.replace("1 2 3\n", "1 2 3 0 0\n")),
        ["5:6 2 0 beyond the fill left out"]
    );
    assert_eq!(
        changes(&text.replace("1 2 4 6", "6 4 2 1").replace("2 3 0", "3 2 0")),
        [
            "13:3 1 row put in rising order",
            "8:3 1 column put in rising order"
        ]
    );
    assert_eq!(
        changes(&text.replace("1 2 4 6", "1 002 4 06")),
        ["13:3 2 leading zeros of a number left out"]
    );
    assert_eq!(
        changes(&text.replace("1 2 4 6", "1 2\n4 6")),
        ["13:1 1 list put on one line"]
    );
}

/// Where and why the Hamming code's text without fill is refused after an edit.
fn refused(from: &str, to: &str) -> String {
    let text = no_fill_at_all();
    assert_eq!(text.matches(from).count(), 1, "{from:?}");
    let text = text.replace(from, to);
    let fault = repair(text.as_bytes()).expect_err("a fault");
    let place = place(text.as_bytes(), fault.at);
    format!("{place} {}: {}", fault.number, fault.what)
}

fn no_fill_at_all() -> String {
    let text = text_of(&hamming());
    let lines = text.lines().map(|line| line.trim_end_matches(" 0"));
    lines.map(|line| line.to_string() + "\r\n").collect()
}

#[test]
fn what_is_ambiguous_is_refused() {
    for (from, to, due) in [
        ("7 3\r\n3", "7 3 2\r\n3", "1:5 18: 2 stands on the line of n and m, after them"),
        ("3 4\r\n3", "3 4 3\r\n3", "2:5 18: 3 stands on the line of the maximum degrees, after them"),
        ("2 1 1 1\r\n", "2 1 1 1 1\r\n", "3:15 18: 1 stands on the line of the 7 column degrees, after them"),
        ("4 4 4\r\n", "4 4\r\n", "5:3 18: 2 stands on the line of the 3 row degrees, after them"),
        ("1 2 3\r\n1", "1 2 3 4\r\n1", "5:7 18: column 1 has degree 3, but its line has 4 indices"),
        ("1 2 3\r\n1", "1 2\r\n1", "5:3 18: column 1 has degree 3, but its line has 2 indices"),
        ("1 2 3\r\n1", "1 0 3\r\n1", "5:3 18: 3 stands after a 0 in the list of column 1; if the file counts from 0, add 1 to each index first"),
        ("1 2 3\r\n1", "0 1 2\r\n1", "5:1 18: 1 stands after a 0 in the list of column 1; if the file counts from 0, add 1 to each index first"),
        ("2 3\r\n1\r\n2", "2 3 1\r\n2", "8:5 18: column 4 has degree 2, but its line has 3 indices"),
        ("1 3 4 7\r\n", "1 3 4\r\n7\r\n", "14:5 18: row 3 has degree 4, but its line has 3 indices"),
        ("1 3 4 7\r\n", "1 3 4 7\r\n1\r\n", "15:1 18: 1 stands after the last list"),
        ("1 3 4 7\r\n", "", "14:1 18: the text ends where entry 1 of row 3 is due"),
        ("1 3 4 7\r\n", "1 3 4 +7\r\n", "14:7 18: a sign stands where only digits, spaces and line feeds may"),
        ("1 3 4 7\r\n", "1 3 4.0 7\r\n", "14:6 18: a point stands where only digits, spaces and line feeds may"),
        ("1 3 4 7\r\n", "1 3 4 7 # end\r\n", "14:9 18: \"#\" stands where only digits, spaces and line feeds may"),
        ("1 3 4 7\r\n", "1 3 4 ٧\r\n", "14:7 18: \"٧\" stands where only digits, spaces and line feeds may"),
        ("1 3 4 7\r\n", "1 3 4 65543\r\n", "14:7 18: \"65543\" is above 65535"),
        ("1 3 4 7\r\n", "1 3 4 6\r\n", "11:1 19: column 7 names row 3, but row 3 does not name column 7"),
        ("1 3 4 7\r\n", "1 3 3 7\r\n", "8:3 19: column 4 names row 3, but row 3 does not name column 4"),
        ("7 3\r\n3", "8 3\r\n3", "4:3 18: 4 stands on the line of the 8 column degrees, after them"),
    ] {
        assert_eq!(refused(from, to), due);
    }
}

/// A column without indices has a line of fill, an empty line or none.
#[test]
fn a_column_without_indices_is_refused_as_such() {
    for fill in ["0 0\r\n", "0\r\n", "\r\n", ""] {
        let columns = format!("1 2\r\n{fill}1 2\r\n1 2\r\n");
        let text = format!("4 2\r\n2 3\r\n2 0 2 2\r\n3 3\r\n{columns}1 3 4\r\n1 3 4\r\n");
        let fault = repair(text.as_bytes()).expect_err("a fault");
        let place = place(text.as_bytes(), fault.at);
        assert_eq!((fault.number, place.line, place.column), (8, 3, 3));
    }
}

#[test]
fn a_repeated_index_is_refused() {
    let text = "3 2\n2 3\n2 2 2\n3 3\n1 2\n1 1\n2 2\n1 2 2\n1 3 3\n";
    let fault = repair(text.as_bytes()).expect_err("a fault");
    assert_eq!(
        (fault.number, place(text.as_bytes(), fault.at).line),
        (6, 8)
    );
    assert_eq!(fault.what, "row 1 names column 2 twice");
}

#[test]
fn rows_are_not_made_from_columns_that_disagree_with_their_degrees() {
    let text = "3 2\n2 3\n2 2 2\n3 3\n1 2\n1 2\n1\t1\n";
    let fault = repair(text.as_bytes()).expect_err("a fault");
    assert_eq!(
        (fault.number, place(text.as_bytes(), fault.at).line),
        (19, 4)
    );
    assert_eq!(fault.what, "row 1 has degree 3, but 4 columns name it");
    let text = "3 2\n2 3\n2 2 2\n3 3\n1 2\n1 2\n1\t9\n";
    let fault = repair(text.as_bytes()).expect_err("a fault");
    assert_eq!(fault.what, "column 3 names row 9, but the last row is 2");
}

#[test]
fn lists_that_only_their_degrees_end_are_refused() {
    let text = no_fill_at_all().replace("\r\n", " ");
    let fault = repair(text.as_bytes()).expect_err("a fault");
    assert_eq!(fault.number, 18);
}

/// Degrees, and the lists as sets, read apart from the program: whatever is not a
/// digit stands between numbers, and zeros after the degrees are fill.
fn places(text: &[u8]) -> Option<(Vec<usize>, Vec<Vec<usize>>)> {
    let words = text.split(|byte| !byte.is_ascii_digit());
    let words = words.filter(|word| !word.is_empty());
    let value = |word: &[u8]| std::str::from_utf8(word).ok()?.parse::<usize>().ok();
    let numbers: Vec<usize> = words.map(value).collect::<Option<_>>()?;
    let (sizes, rest) = numbers.split_at_checked(4)?;
    let (degrees, rest) = rest.split_at_checked(sizes[0] + sizes[1])?;
    let mut indices = rest.iter().copied().filter(|&index| index > 0);
    let list = |&degree: &usize| {
        let mut list: Vec<usize> = indices.by_ref().take(degree).collect();
        list.sort_unstable();
        list
    };
    let lists = degrees.iter().map(list).collect();
    Some((degrees.to_vec(), lists))
}

/// What a repair makes of any text has the degrees and the lists of that text.
#[test]
fn no_code_is_changed() {
    let mut random = Random::new(7);
    let (mut repaired, mut refused) = (0, 0);
    for _ in 0..20_000 {
        let code = tiny_code(&mut random);
        let mut text = text_of(&code);
        text = random.pick(&OF_LISTS)(&mut random, &text);
        text = random.pick(&OF_BYTES)(&mut random, &text);
        let text = damaged(&mut random, text.as_bytes());
        let Ok(made) = repair(&text) else {
            refused += 1;
            continue;
        };
        repaired += 1;
        let shown = String::from_utf8_lossy(&text);
        assert_eq!(import(&made.text).0, 0, "{shown}");
        let (degrees, lists) = places(&made.text).expect("numbers");
        let (given_degrees, given) = places(&text).expect("numbers");
        assert_eq!(given_degrees, degrees, "{shown}");
        let columns = if given[degrees.len() - 1].is_empty() {
            code.bits
        } else {
            degrees.len()
        };
        assert_eq!(given[..columns], lists[..columns], "{shown}");
    }
    assert!(repaired > 1_000 && refused > 1_000, "{repaired} {refused}");
}

#[test]
fn any_bytes_are_repaired_or_refused() {
    let mut random = Random::new(8);
    for _ in 0..50_000 {
        let length = random.below(60);
        let few = random.once_in(2);
        let byte = |_| match few {
            true => random.pick(b"00112233 \t\r\n\n#\x1A"),
            false => random.any() as u8,
        };
        let text: Vec<u8> = (0..length).map(byte).collect();
        if let Ok(made) = repair(&text) {
            assert_eq!(import(&made.text).0, 0, "{text:?}");
        }
    }
}

/// Large sizes need no large tables.
#[test]
fn sizes_are_only_numbers() {
    let zeros = "0 ".repeat(2 * 65_535);
    for (text, number) in [
        ("65535 65535 65535 65535\n".to_string(), 18),
        (format!("65535 65535\n65535 65535\n{zeros}"), 18),
        (format!("65535\t65535\n0 0\n{zeros}"), 3),
    ] {
        assert_eq!(repair(text.as_bytes()).expect_err("a fault").number, number);
    }
}
