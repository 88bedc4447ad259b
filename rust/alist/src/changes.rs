//! What a repair changed.

use crate::draft::Axis;
use std::fmt;

/// A kind of change. Those from `ColumnOrder` on are matters of form: strict text
/// may have them, its normal form does not.
#[derive(Clone, Copy, Debug, PartialEq, Eq)]
pub enum Kind {
    ByteOrderMark,
    ReturnAndFeed,
    Return,
    Tab,
    OtherBlank,
    EndMark,
    Comment,
    Maximum(Axis, u16, u16),
    FillAdded,
    FillDropped,
    RowsMissing,
    RowOrder,
    ColumnOrder,
    LeadingZeros,
    Spacing,
    Lines,
}

impl fmt::Display for Kind {
    fn fmt(&self, out: &mut fmt::Formatter) -> fmt::Result {
        let text = match self {
            Kind::ByteOrderMark => "byte order mark left out",
            Kind::ReturnAndFeed => "line end CR LF made LF",
            Kind::Return => "line end CR made LF",
            Kind::Tab => "tab made a space",
            Kind::OtherBlank => "form feed or vertical tab made a space",
            Kind::EndMark => "NUL or Ctrl-Z at the end left out",
            Kind::Comment => "comment line left out",
            Kind::Maximum(axis, given, largest) => {
                return write!(out, "maximum {axis} degree {given} made {largest}");
            }
            Kind::FillAdded => "0 added as fill",
            Kind::FillDropped => "0 beyond the fill left out",
            Kind::RowsMissing => "row made from the columns: the file has no rows",
            Kind::RowOrder => "row put in rising order",
            Kind::ColumnOrder => "column put in rising order",
            Kind::LeadingZeros => "leading zeros of a number left out",
            Kind::Spacing => "spacing made one space, or one line end",
            Kind::Lines => "list put on one line",
        };
        out.write_str(text)
    }
}

/// How often a kind of change was made, and the byte of the first.
#[derive(Clone, Copy, Debug, PartialEq, Eq)]
pub struct Change {
    pub kind: Kind,
    pub times: usize,
    pub at: usize,
}

/// Every change, a kind once.
#[derive(Clone, Debug, Default, PartialEq, Eq)]
pub struct Changes(pub Vec<Change>);

impl Changes {
    /// Notes changes of one kind, the first of them at this byte.
    pub fn note(&mut self, kind: Kind, times: usize, at: usize) {
        if times == 0 {
            return;
        }
        match self.0.iter_mut().find(|change| change.kind == kind) {
            Some(change) => {
                change.times += times;
                change.at = change.at.min(at);
            }
            None => self.0.push(Change { kind, times, at }),
        }
    }
}
