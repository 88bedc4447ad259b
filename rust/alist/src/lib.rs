//! What the program `alist` does, over any library that imports and exports:
//! the program itself (`main.rs`) hands in the compiled one.
//!
//! The library judges every text. What stands here finds the place that explains
//! its number, makes strict texts of common variants, and counts degrees.

mod changes;
mod clean;
mod command;
mod draft;
mod fault;
mod files;
mod filled;
mod judge;
mod lines;
mod messages;
mod notes;
mod numbers;
mod place;
mod records;
mod repair;
mod run;
mod show;
mod strict;
mod write;

pub use changes::{Change, Changes, Kind};
pub use fault::{meaning, Fault};
pub use place::{place, Place};
pub use repair::{repair, Repaired};
pub use run::{run, Streams};
pub use strict::explain;
