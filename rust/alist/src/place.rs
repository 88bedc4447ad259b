//! Places in a text.

use std::fmt;

/// The three bytes that some editors put first in a UTF-8 text.
pub const BYTE_ORDER_MARK: &[u8] = b"\xEF\xBB\xBF";

/// A line and a column, both from 1; a column is a byte.
#[derive(Clone, Copy, Debug, PartialEq, Eq)]
pub struct Place {
    pub line: usize,
    pub column: usize,
}

impl fmt::Display for Place {
    fn fmt(&self, out: &mut fmt::Formatter) -> fmt::Result {
        write!(out, "{}:{}", self.line, self.column)
    }
}

/// The place of the byte `at`. LF, CR LF and CR each end a line; a byte order
/// mark has no column.
pub fn place(text: &[u8], at: usize) -> Place {
    let mut line = 1;
    let mut start = if text.starts_with(BYTE_ORDER_MARK) {
        BYTE_ORDER_MARK.len()
    } else {
        0
    };
    for (i, &byte) in text.iter().enumerate().take(at) {
        if byte == b'\n' || byte == b'\r' && text.get(i + 1) != Some(&b'\n') {
            line += 1;
            start = i + 1;
        }
    }
    Place {
        line,
        column: at.saturating_sub(start) + 1,
    }
}

/// What stands at a byte, in words.
pub fn standing(text: &[u8], at: usize) -> String {
    let rest = text.get(at..).unwrap_or_default();
    let name = match rest {
        [] => "the end of the text",
        [0xEF, 0xBB, 0xBF, ..] => "a byte order mark",
        [0xFF, 0xFE, ..] | [0xFE, 0xFF, ..] if at == 0 => "the mark of UTF-16 text",
        [b'\r', b'\n', ..] => "a line end CR LF",
        [b'\r', ..] => "a carriage return",
        [b'\n', ..] => "a line feed",
        [b'\t', ..] => "a tab",
        [0, ..] => "a NUL byte",
        [0x0B, ..] => "a vertical tab",
        [0x0C, ..] => "a form feed",
        [0x1A, ..] => "a Ctrl-Z byte",
        [b'+' | b'-', ..] => "a sign",
        [b',' | b';', ..] => "a comma or semicolon",
        [b'.', ..] => "a point",
        _ => return format!("\"{}\"", word(rest)),
    };
    name.into()
}

/// The word that begins here, or the start of a long one, fit for a message.
fn word(rest: &[u8]) -> String {
    const MOST: usize = 20;
    let ends = |byte: &u8| byte.is_ascii_whitespace() || *byte == 0;
    let length = rest.iter().position(ends).unwrap_or(rest.len());
    let shown = &rest[..length.min(MOST)];
    let dots = if length > MOST { ".." } else { "" };
    let text = String::from_utf8_lossy(shown).escape_debug().to_string();
    text + dots
}

#[cfg(test)]
mod tests {
    use super::*;

    #[test]
    fn every_kind_of_line_end_ends_a_line() {
        let text = b"a\nb\r\nc\rd\n";
        let places = [(0, 1, 1), (1, 1, 2), (2, 2, 1), (4, 2, 3), (5, 3, 1)];
        for (at, line, column) in places {
            assert_eq!(place(text, at), Place { line, column }, "{at}");
        }
        let end = [(7, 4, 1), (9, 5, 1)];
        for (at, line, column) in end {
            assert_eq!(place(text, at), Place { line, column }, "{at}");
        }
    }

    #[test]
    fn a_byte_order_mark_has_no_column() {
        assert_eq!(place(b"\xEF\xBB\xBF7 3\n", 0).column, 1);
        assert_eq!(place(b"\xEF\xBB\xBF7 3\n", 5).column, 3);
    }

    #[test]
    fn what_stands_is_named() {
        for (text, name) in [
            (&b""[..], "the end of the text"),
            (b"\t7", "a tab"),
            (b"\r\n", "a line end CR LF"),
            (b"\r7", "a carriage return"),
            (b"\xFF\xFE7\0", "the mark of UTF-16 text"),
            (b"seven 7", "\"seven\""),
            (b"\x1B[2J", "\"\\u{1b}[2J\""),
            (b"abcdefghijklmnopqrstuvwxyz", "\"abcdefghijklmnopqrst..\""),
        ] {
            assert_eq!(standing(text, 0), name);
        }
    }
}
