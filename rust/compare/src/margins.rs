//! Lists to lend, with the memory around them.

use interface::Lists;

/// Entries kept before and after each lent list, which no call may touch: an odd number, so
/// that a list is aligned for its type and no more.
pub const MARGIN: usize = 9;

/// A list after a call, with its name.
pub type Seen = (&'static str, Vec<i64>);

/// A list to lend, filled with numbers that no call writes by chance.
pub struct Lent<T> {
    entries: Vec<T>,
    fill: fn(usize) -> T,
}

impl<T: Copy + Into<i64> + PartialEq> Lent<T> {
    fn new(length: usize, fill: fn(usize) -> T) -> Lent<T> {
        Lent {
            entries: (0..length + 2 * MARGIN).map(fill).collect(),
            fill,
        }
    }

    pub fn list(&mut self) -> &mut [T] {
        let end = self.entries.len() - MARGIN;
        &mut self.entries[MARGIN..end]
    }

    /// How many entries a call changed in the margins and, if asked, in the list.
    pub fn changed(&self, in_list: bool) -> usize {
        let end = self.entries.len() - MARGIN;
        let asked = |place: &usize| in_list || !(MARGIN..end).contains(place);
        let is_changed = |place: &usize| self.entries[*place] != (self.fill)(*place);
        let places = (0..self.entries.len()).filter(asked);
        places.filter(is_changed).count()
    }

    /// All entries afterwards, margins included.
    pub fn seen(&self, name: &'static str) -> Seen {
        (
            name,
            self.entries.iter().map(|&entry| entry.into()).collect(),
        )
    }
}

pub fn bytes(length: usize) -> Lent<u8> {
    Lent::new(length, |place| 100 + (place % 101) as u8)
}

pub fn shorts(length: usize) -> Lent<u16> {
    Lent::new(length, |place| 50_000 + (place % 10_007) as u16)
}

pub fn costs(length: usize) -> Lent<i16> {
    Lent::new(length, |place| 20_000 + (place % 5_003) as i16)
}

pub fn rows(length: usize) -> Lent<i32> {
    Lent::new(length, |place| 1_000_000_007 + place as i32)
}

fn sums(length: usize) -> Lent<i64> {
    Lent::new(length, |place| -1_000_000_000_000_007 - place as i64)
}

/// The decoder's lists.
pub struct LentLists {
    triples: Lent<u16>,
    counts: Lent<u16>,
    sums: Lent<i64>,
    values: Lent<i16>,
    rows: Lent<i32>,
    word: Lent<u8>,
}

impl LentLists {
    /// Lists of these lengths.
    pub fn new(room: [usize; 6]) -> LentLists {
        LentLists {
            triples: shorts(room[0]),
            counts: shorts(room[1]),
            sums: sums(room[2]),
            values: costs(room[3]),
            rows: rows(room[4]),
            word: bytes(room[5]),
        }
    }

    pub fn lend(&mut self) -> Lists<'_> {
        Lists {
            triples: self.triples.list(),
            counts: self.counts.list(),
            sums: self.sums.list(),
            values: self.values.list(),
            rows: self.rows.list(),
            word: self.word.list(),
        }
    }

    /// All of them afterwards.
    pub fn seen(&self) -> [Seen; 6] {
        [
            self.triples.seen("triples"),
            self.counts.seen("counts"),
            self.sums.seen("sums"),
            self.values.seen("values"),
            self.rows.seen("rows"),
            self.word.seen("word"),
        ]
    }
}
