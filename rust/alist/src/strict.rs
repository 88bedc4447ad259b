//! Where a text is not what the library's import takes.

use crate::draft::Cursor;
use crate::fault::Fault;
use crate::filled;
use crate::judge::judge;
use crate::numbers::numbers;

/// The first wrong place of a text, with the number that import gives for it;
/// none for a text that import takes.
pub fn explain(text: &[u8]) -> Option<Fault> {
    let (numbers, stop) = numbers(text);
    let cursor = Cursor {
        rest: &numbers,
        stop: stop.as_ref(),
        length: text.len(),
    };
    filled::strict(cursor).and_then(|draft| judge(&draft)).err()
}
