//! What is wrong with an input, and where.

/// The first wrong place of an input.
#[derive(Clone, Debug, PartialEq, Eq)]
pub struct Fault {
    /// The number of its cause.
    pub number: u32,
    /// The byte where it stands.
    pub at: usize,
    /// What is wrong there.
    pub what: String,
}

impl Fault {
    pub fn new(number: u32, at: usize, what: impl Into<String>) -> Fault {
        Fault {
            number,
            at,
            what: what.into(),
        }
    }
}

/// What a number that import or export can give means.
pub fn meaning(number: u32) -> &'static str {
    match number {
        1 => "the bytes end inside a record",
        2 => "another mark than the due one",
        3 => "n outside 3..4096 or m outside 1..2048",
        4 => "a degree outside 2..32",
        5 => "an index n or above",
        6 => "an index not above the one before",
        7 => "more than 8192 triples",
        8 => "a bit in no check",
        9 => "bytes after the last check",
        10 => "a lent list too short",
        18 => "not a strict alist text",
        19 => "columns and rows do not name the same places",
        _ => "no number of import or export",
    }
}
