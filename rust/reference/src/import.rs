//! Import: alist text to code records.

use crate::alist::{Alist, Side};
use crate::cause::{holding, Cause};
use crate::fault::Fault;
use crate::Reference;
use std::collections::{HashMap, HashSet};

/// How often each place, a row and a column, is named.
type Places = HashMap<(usize, usize), usize>;

fn counted(places: impl Iterator<Item = (usize, usize)>) -> Places {
    let mut counts = Places::new();
    for place in places {
        *counts.entry(place).or_default() += 1;
    }
    counts
}

/// Every list's place, from 1, with each of its indices.
fn named<'a>(lists: &'a [&[usize]]) -> impl Iterator<Item = (usize, usize)> + 'a {
    let with_place = |(place, list): (usize, &'a &[usize])| list.iter().map(move |&i| (place, i));
    (1..).zip(lists).flat_map(with_place)
}

fn rises(list: &[usize]) -> bool {
    list.windows(2).all(|pair| pair[0] < pair[1])
}

/// The bytes of the records with these checks.
fn record_bytes(rows: &[&[usize]]) -> usize {
    6 + rows.iter().map(|row| 3 + 2 * row.len()).sum::<usize>()
}

/// For faults: whether each place of one side is on the other, with a count that
/// agrees.
fn within(one: &Places, other: &Places, agrees: fn(&usize, &usize) -> bool) -> bool {
    let found = |(place, count)| other.get(place).is_some_and(|due| agrees(count, due));
    one.iter().all(found)
}

/// For faults: whether each side names a row and a column as often as it has places.
fn same_degrees(columns: &[&[usize]], rows: &[&[usize]]) -> bool {
    let places = |lists| counted(named(lists).map(|(place, _)| (place, 0)));
    let indices = |lists| counted(named(lists).map(|(_, index)| (index, 0)));
    places(columns) == indices(rows) && places(rows) == indices(columns)
}

impl Reference {
    /// Whether the maximum is the largest degree, 0 where there is none, and each
    /// list is first its degree's count of indices and then zeros.
    fn is_sound_side(self, side: &Side) -> bool {
        let largest = side.degrees.iter().copied().max().unwrap_or(0);
        let is_index = |&index: &usize| index != 0;
        let is_sound = |(degree, list): (usize, &[usize])| {
            let (indices, zeros) = list.split_at(degree.min(list.len()));
            let filled = !zeros.iter().any(is_index) || self.has(Fault::FillerNotJudged);
            indices.len() == degree && indices.iter().all(is_index) && filled
        };
        let told = side.most == largest || self.has(Fault::MaximaNotJudged);
        let refused = self.has(Fault::NoDegreeRefused) && side.degrees.contains(&0);
        told && side.filled().all(is_sound) && !refused
    }

    /// Whether columns and rows name the same places, each equally often. An index
    /// above the other side's count names none of its places.
    fn same_places(self, columns: &[&[usize]], rows: &[&[usize]]) -> bool {
        let by_columns = counted(named(columns).map(|(column, row)| (row, column)));
        let by_rows = counted(named(rows));
        let sets =
            || by_columns.len() == by_rows.len() && within(&by_columns, &by_rows, |_, _| true);
        match self.fault {
            Some(Fault::PlacesAsSets) => sets(),
            Some(Fault::PlacesAsSetsOfOneSize) => {
                sets() && named(columns).count() == named(rows).count()
            }
            Some(Fault::PlacesByDegrees) => same_degrees(columns, rows),
            Some(Fault::ColumnsWithinRows) => within(&by_columns, &by_rows, usize::eq),
            Some(Fault::RowsWithinColumns) => within(&by_rows, &by_columns, usize::eq),
            Some(Fault::ColumnOrderDemanded) => {
                by_columns == by_rows && columns.iter().all(|column| rises(column))
            }
            _ => by_columns == by_rows,
        }
    }

    /// The causes against the rows as records, each with whether it holds.
    fn causes_of_rows(self, bits: usize, rows: &[&[usize]]) -> Vec<(Cause, bool)> {
        let checks = rows.len();
        let sizes = self.within(bits, 3, 4_096) && self.within(checks, 1, 2_048);
        let triples: usize = rows.iter().map(|row| self.triples_of(row.len())).sum();
        let used: HashSet<usize> = rows.iter().flat_map(|row| row.iter().copied()).collect();
        let mut causes = vec![(Cause::Size, !sizes)];
        for row in rows {
            causes.push((Cause::Degree, !self.within(row.len(), 2, 32)));
            causes.push((Cause::IndexNotRising, !rises(row)));
        }
        if self.has(Fault::DegreesJudgedFirst) {
            causes.sort_by_key(|&(cause, _)| cause as u32);
        }
        causes.push((Cause::TooManyTriples, triples > self.limit(8_192)));
        causes.push((Cause::UnusedBit, !(1..=bits).all(|bit| used.contains(&bit))));
        causes
    }

    /// All causes in order, each with whether it holds.
    fn judged(self, alist: &Alist, room: usize) -> Vec<(Cause, bool)> {
        let sound = self.is_sound_side(&alist.columns) && self.is_sound_side(&alist.rows);
        let (columns, rows) = (alist.columns.indices(), alist.rows.indices());
        let mut causes = vec![(Cause::Text, !sound)];
        if self.has(Fault::HighIndexIsFive) {
            let high = named(&rows).any(|(_, index)| index > columns.len());
            causes.push((Cause::IndexTooHigh, high));
        }
        causes.push((Cause::Places, !self.same_places(&columns, &rows)));
        causes.extend(self.causes_of_rows(columns.len(), &rows));
        let short = self.is_short(room, record_bytes(&rows));
        causes.push((Cause::ListTooShort, short));
        causes
    }

    /// Every cause against an import; where the numbers make no lists, 18 alone.
    pub fn causes_of_import(self, text: &[u8], room: usize) -> Vec<Cause> {
        let numbers = self.numbers(text).unwrap_or_default();
        match self.parts(&numbers) {
            Err(cause) => vec![cause],
            Ok(alist) => holding(self.judged(&alist, room)),
        }
    }

    pub(crate) fn try_import(self, text: &[u8], code: &mut [u8]) -> Result<usize, Cause> {
        let numbers = self.numbers(text)?;
        let alist = self.parts(&numbers)?;
        let judged = self.judge(&self.judged(&alist, code.len()));
        self.write_bytes(
            judged,
            || records(&alist.rows.indices(), alist.columns.degrees.len()),
            code,
        )
    }
}

/// The records of a code: its rows with indices from 1, and its bits.
fn records(rows: &[&[usize]], bits: usize) -> Vec<u8> {
    let two = |number: usize| (number as u16).to_be_bytes();
    let mut bytes = vec![0x4C, 0x48];
    bytes.extend(two(bits));
    bytes.extend(two(rows.len()));
    for row in rows {
        bytes.extend([0x4C, 0x43, row.len() as u8]);
        bytes.extend(row.iter().flat_map(|index| two(index - 1)));
    }
    bytes
}
