//! A code as a text tells it, before it is judged.

use crate::fault::Fault;
use crate::numbers::Number;
use std::fmt;

/// Columns are bits, rows are checks.
#[derive(Clone, Copy, Debug, PartialEq, Eq)]
pub enum Axis {
    Column,
    Row,
}

impl fmt::Display for Axis {
    fn fmt(&self, out: &mut fmt::Formatter) -> fmt::Result {
        out.write_str(match self {
            Axis::Column => "column",
            Axis::Row => "row",
        })
    }
}

/// What is due where a number is read; lists and entries count from 1.
#[derive(Clone, Copy, Debug)]
pub enum Due {
    Bits,
    Checks,
    Maximum(Axis),
    Degree(Axis, usize),
    Entry(Axis, usize, usize),
}

impl fmt::Display for Due {
    fn fmt(&self, out: &mut fmt::Formatter) -> fmt::Result {
        match self {
            Due::Bits => write!(out, "n"),
            Due::Checks => write!(out, "m"),
            Due::Maximum(axis) => write!(out, "the maximum {axis} degree"),
            Due::Degree(axis, list) => write!(out, "the degree of {axis} {list}"),
            Due::Entry(axis, list, entry) => write!(out, "entry {entry} of {axis} {list}"),
        }
    }
}

/// The list of a column or a row: its indices, and how many zeros filled it.
#[derive(Clone, Debug, Default)]
pub struct List {
    pub entries: Vec<Number>,
    pub zeros: usize,
}

/// The numbers in front of the lists.
#[derive(Clone, Debug)]
pub struct Header {
    pub bits: Number,
    pub checks: Number,
    pub column_maximum: Number,
    pub row_maximum: Number,
    pub column_degrees: Vec<Number>,
    pub row_degrees: Vec<Number>,
}

/// Header and lists; each list has as many entries as its degree says, none of them 0.
#[derive(Clone, Debug)]
pub struct Draft {
    pub header: Header,
    pub columns: Vec<List>,
    pub rows: Vec<List>,
}

/// Header and lists of a text that may leave the rows out.
#[derive(Clone, Debug)]
pub struct Reading {
    pub header: Header,
    pub columns: Vec<List>,
    pub rows: Option<Vec<List>>,
}

/// The largest degree, 0 where there is none.
pub fn largest(degrees: &[Number]) -> u16 {
    degrees.iter().map(|degree| degree.value).max().unwrap_or(0)
}

/// Numbers not yet read.
pub struct Cursor<'a> {
    pub rest: &'a [Number],
    /// What is wrong where the numbers end, if it is not that they end.
    pub stop: Option<&'a Fault>,
    /// The length of the text.
    pub length: usize,
}

impl Cursor<'_> {
    /// The next number.
    pub fn next(&mut self, due: Due) -> Result<Number, Fault> {
        match self.rest.split_first() {
            Some((&number, rest)) => {
                self.rest = rest;
                Ok(number)
            }
            None => Err(self.missing(due)),
        }
    }

    /// As many degrees as the number says.
    pub fn degrees(&mut self, axis: Axis, count: Number) -> Result<Vec<Number>, Fault> {
        let lists = 1..=count.value.into();
        lists
            .map(|list| self.next(Due::Degree(axis, list)))
            .collect()
    }

    /// That nothing is left.
    pub fn end(&self) -> Result<(), Fault> {
        match (self.rest.first(), self.stop) {
            (Some(number), _) => {
                let what = format!("{} stands after the last list", number.value);
                Err(Fault::new(18, number.at, what))
            }
            (None, Some(fault)) => Err(fault.clone()),
            (None, None) => Ok(()),
        }
    }

    fn missing(&self, due: Due) -> Fault {
        let ends = || Fault::new(18, self.length, format!("the text ends where {due} is due"));
        self.stop.cloned().unwrap_or_else(ends)
    }
}
