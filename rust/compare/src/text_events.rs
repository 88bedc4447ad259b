//! What the tally counts of alist texts.

use crate::pairs::pairs_of;

/// What must happen in some accepted import.
pub const OF_TEXTS: [&str; 8] = [
    "column not rising",
    "leading zero",
    "separator first",
    "no separator last",
    "separators side by side",
    "one line",
    "records in a longer list",
    "records in a list of their length",
];

/// The causes against an import, in their order; every two of them can meet.
const AGAINST_TEXTS: [u32; 8] = [18, 19, 3, 4, 6, 7, 8, 10];

/// Every two causes against an import.
pub fn pairs_against_texts() -> Vec<[u32; 2]> {
    pairs_of(&AGAINST_TEXTS)
}

/// What an accepted text has.
pub fn text_events(text: &[u8]) -> [(&'static str, bool); 6] {
    let text = std::str::from_utf8(text).expect("digits and separators");
    let words: Vec<&str> = text.split_ascii_whitespace().collect();
    let number = |word: &&str| word.parse::<usize>().expect("a number");
    let sizes: Vec<usize> = words[..3].iter().map(number).collect();
    let (bits, checks, most) = (sizes[0], sizes[1], sizes[2]);
    let columns: Vec<usize> = words[4 + bits + checks..].iter().map(number).collect();
    let falls = |column: &[usize]| {
        column
            .windows(2)
            .any(|pair| pair[0] > pair[1] && pair[1] > 0)
    };
    let separators = text.split(|byte: char| byte.is_ascii_digit());
    let leads = |word: &&str| word.len() > 1 && word.starts_with('0');
    [
        (
            "column not rising",
            columns[..bits * most].chunks(most).any(falls),
        ),
        ("leading zero", words.iter().any(leads)),
        ("separator first", !text.starts_with(words[0])),
        (
            "no separator last",
            text.ends_with(|byte: char| byte.is_ascii_digit()),
        ),
        (
            "separators side by side",
            separators.map(str::len).any(|length| length > 1),
        ),
        ("one line", !text.contains('\n')),
    ]
}
