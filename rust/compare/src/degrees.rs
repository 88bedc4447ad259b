//! The degrees of the checks that an input shows, and what the tally counts of them: every number
//! with a check of two bits, and numbers next to the least and the largest degree.

use crate::case::Case;

/// A number that must be met where the last check that was judged has this degree.
const AT_DEGREES: [(&str, usize); 7] = [
    ("1", 2),
    ("2", 2),
    ("4", 0),
    ("4", 1),
    ("4", 33),
    ("5", 2),
    ("6", 2),
];

/// Those of an import, which never gives 1, 2 and 5.
const AT_DEGREES_OF_ROWS: [(&str, usize); 4] = [("4", 0), ("4", 1), ("4", 33), ("6", 2)];

fn rises(list: &[usize]) -> bool {
    list.windows(2).all(|pair| pair[0] < pair[1])
}

/// Whether a check is as it should be, over so many bits.
fn is_sound(bits: usize, degree: usize, indices: &[usize]) -> bool {
    let low = indices.iter().all(|&index| index < bits);
    (2..=32).contains(&degree) && indices.len() == degree && low && rises(indices)
}

/// The degrees of checks up to the first that is not sound, which is the last.
fn judged(bits: usize, checks: impl Iterator<Item = (usize, Vec<usize>)>) -> Vec<usize> {
    let mut degrees = Vec::new();
    for (degree, indices) in checks {
        degrees.push(degree);
        if !is_sound(bits, degree, &indices) {
            break;
        }
    }
    degrees
}

/// The same of records, from their first check to where another mark stands.
fn of_records(records: &[u8]) -> Vec<usize> {
    let number = |field: &[u8]| usize::from(field[0]) * 256 + usize::from(field[1]);
    let Some((header, mut rest)) = records.split_at_checked(6) else {
        return Vec::new();
    };
    let check = || match rest {
        [b'L', b'C', degree, after @ ..] => {
            let degree = usize::from(*degree);
            let (fields, behind) = after.split_at(after.len().min(2 * degree));
            rest = behind;
            Some((degree, fields.chunks_exact(2).map(number).collect()))
        }
        _ => None,
    };
    judged(number(&header[2..4]), std::iter::from_fn(check))
}

/// The same of the rows of a text, if its numbers are as many as its sizes say.
fn of_text(text: &[u8]) -> Vec<usize> {
    let text = String::from_utf8_lossy(text);
    let numbers = text
        .split_ascii_whitespace()
        .map_while(|word| word.parse().ok());
    let numbers: Vec<usize> = numbers.collect();
    let &[bits, checks, column, row, ref rest @ ..] = &numbers[..] else {
        return Vec::new();
    };
    let sizes = [bits, checks, column, row];
    if sizes.iter().any(|&size| size > 65_535) || rest.len() < bits + checks + bits * column {
        return Vec::new();
    }
    let (degrees, lists) = rest[bits..].split_at(checks);
    let mut rows = lists[bits * column..].chunks(row.max(1));
    let check = |&degree: &usize| {
        let indices = rows.next().unwrap_or_default();
        (degree, indices[..degree.min(indices.len())].to_vec())
    };
    judged(65_536, degrees.iter().map(check))
}

/// The degrees of the checks or rows that a case shows.
pub fn degrees_of(case: &Case) -> Vec<usize> {
    match case {
        Case::Import { text, .. } => of_text(text),
        Case::Frames { input } => of_records(input),
        _ => case.records().map(of_records).unwrap_or_default(),
    }
}

/// What to count beside a kind, an entry's number or line, for these degrees.
pub fn kinds_at(kind: &str, degrees: &[usize]) -> Vec<String> {
    let expected = kinds_with_two_bits(kind);
    let mut met = Vec::new();
    if degrees.contains(&2) {
        met.push(with_two_bits(kind));
    }
    met.extend(degrees.last().map(|&degree| at_degree(kind, degree)));
    met.retain(|what| expected.contains(what));
    met
}

fn with_two_bits(kind: &str) -> String {
    format!("{kind} with a check of two bits")
}

fn at_degree(kind: &str, degree: usize) -> String {
    format!("{kind} at degree {degree}")
}

/// What must be met beside a kind; nothing with an entry that takes no code.
pub fn kinds_with_two_bits(kind: &str) -> Vec<String> {
    const WITHOUT_CODES: [&str; 5] = ["gaussian", "hard", "erasing", "reflect", "add_words"];
    let (entry, number) = kind.split_once(' ').unwrap_or((kind, ""));
    if WITHOUT_CODES.contains(&entry) {
        return Vec::new();
    }
    let number = number.trim_start_matches("R ");
    let at: &[(&str, usize)] = match entry {
        "import" => &AT_DEGREES_OF_ROWS,
        _ => &AT_DEGREES,
    };
    let at = at.iter().filter(|(other, _)| *other == number);
    let at = at.map(|&(_, degree)| at_degree(kind, degree));
    std::iter::once(with_two_bits(kind)).chain(at).collect()
}
