//! What is told of an input. Each message stands behind the input's name, and
//! begins with a place or a space.

use crate::changes::{Change, Changes};
use crate::fault::{meaning, Fault};
use crate::place::place;
use crate::records::{self, HEADER_MARK};
use crate::repair::repair;
use crate::strict::explain;

pub const STRICT_ALREADY: &str = " strict already, nothing changed";
const THESE_ARE_RECORDS: &str = " these are code records: show and export take them";

/// Why import refused a text with this number.
pub fn of_text(text: &[u8], number: u32) -> Vec<String> {
    let mut messages = vec![match explain(text) {
        Some(fault) if fault.number == number => located(text, &fault),
        _ => unplaced(number),
    }];
    if text.starts_with(&HEADER_MARK) {
        messages.push(THESE_ARE_RECORDS.into());
    } else if repair(text).is_ok() {
        messages.push(" alist repair makes a strict text of it".into());
    }
    messages
}

/// Why export refused records with this number.
pub fn of_records(code: &[u8], number: u32) -> Vec<String> {
    let mut messages = vec![match records::read(code) {
        Err(fault) if fault.number == number => {
            format!(" offset {}: {} ({})", fault.at, fault.what, cause(number))
        }
        _ => unplaced(number),
    }];
    if looks_like_text(code) {
        messages.push(" this looks like alist text: show and import take it".into());
    }
    messages
}

fn looks_like_text(code: &[u8]) -> bool {
    let is_of_text = |byte: &u8| byte.is_ascii_digit() || byte.is_ascii_whitespace();
    !code.is_empty() && code.iter().all(is_of_text)
}

/// Why a text cannot be repaired.
pub fn not_repaired(text: &[u8], fault: &Fault) -> Vec<String> {
    let message = match fault.number {
        18 => format!("{}: {}", place(text, fault.at), fault.what),
        _ => located(text, fault),
    };
    let hint = match text.starts_with(&HEADER_MARK) {
        true => THESE_ARE_RECORDS,
        false => " not repaired",
    };
    vec![message, hint.into()]
}

/// A refusal whose place this program does not find.
pub fn unplaced(number: u32) -> String {
    format!(" refused ({}); no place was found", cause(number))
}

/// A line for each kind of change.
pub fn changes(text: &[u8], changes: &Changes) -> Vec<String> {
    let line = |change: &Change| {
        let times = match change.times {
            1 => "once".into(),
            times => format!("{times} times, here first"),
        };
        format!("{}: {}, {times}", place(text, change.at), change.kind)
    };
    changes.0.iter().map(line).collect()
}

fn located(text: &[u8], fault: &Fault) -> String {
    format!(
        "{}: {} ({})",
        place(text, fault.at),
        fault.what,
        cause(fault.number)
    )
}

fn cause(number: u32) -> String {
    format!("{number}: {}", meaning(number))
}
