//! Bytes that files in use have and strict text has not, made spaces and line
//! feeds. The clean text has the length of the given one, so places stay.

use crate::changes::{Changes, Kind};
use crate::place::BYTE_ORDER_MARK;

/// The clean text. Bytes that are none of these variants stay as they are.
pub fn clean(text: &[u8], changes: &mut Changes) -> Vec<u8> {
    let mut clean = text.to_vec();
    leave_out_mark(&mut clean, changes);
    leave_out_end(&mut clean, changes);
    replace_blanks(&mut clean, changes);
    leave_out_comments(&mut clean, changes);
    clean
}

fn leave_out_mark(text: &mut [u8], changes: &mut Changes) {
    if text.starts_with(BYTE_ORDER_MARK) {
        text[..BYTE_ORDER_MARK.len()].fill(b' ');
        changes.note(Kind::ByteOrderMark, 1, 0);
    }
}

/// NUL and Ctrl-Z bytes with nothing but blanks behind them.
fn leave_out_end(text: &mut [u8], changes: &mut Changes) {
    for at in (0..text.len()).rev() {
        match text[at] {
            0 | 0x1A => {
                text[at] = b' ';
                changes.note(Kind::EndMark, 1, at);
            }
            b' ' | b'\t' | b'\n' | b'\r' | 0x0B | 0x0C => {}
            _ => return,
        }
    }
}

/// A CR in front of LF becomes a space, any other a line feed.
fn replace_blanks(text: &mut [u8], changes: &mut Changes) {
    for at in 0..text.len() {
        let (byte, kind) = match text[at] {
            b'\r' if text.get(at + 1) == Some(&b'\n') => (b' ', Kind::ReturnAndFeed),
            b'\r' => (b'\n', Kind::Return),
            b'\t' => (b' ', Kind::Tab),
            0x0B | 0x0C => (b' ', Kind::OtherBlank),
            _ => continue,
        };
        text[at] = byte;
        changes.note(kind, 1, at);
    }
}

/// Lines whose first byte other than spaces is `#`.
fn leave_out_comments(text: &mut [u8], changes: &mut Changes) {
    let mut start = 0;
    for line in text.split_mut(|&byte| byte == b'\n') {
        let first = line.iter().position(|&byte| byte != b' ');
        if let Some(first) = first.filter(|&first| line[first] == b'#') {
            changes.note(Kind::Comment, 1, start + first);
            line.fill(b' ');
        }
        start += line.len() + 1;
    }
}

#[cfg(test)]
mod tests {
    use super::*;

    /// The clean text, and the changes as kind, times and first byte.
    fn cleaned(text: &[u8]) -> (String, Vec<(Kind, usize, usize)>) {
        let mut changes = Changes::default();
        let clean = clean(text, &mut changes);
        assert_eq!(clean.len(), text.len());
        let changes = changes.0.iter();
        (
            String::from_utf8_lossy(&clean).into(),
            changes.map(|c| (c.kind, c.times, c.at)).collect(),
        )
    }

    #[test]
    fn variants_become_spaces_and_line_feeds() {
        let (text, changes) = cleaned(b"7\t3\r\n1\x0C4\r2\x0B5\r\n\x1A\0");
        assert_eq!(text, "7 3 \n1 4\n2 5 \n  ");
        assert_eq!(
            changes,
            [
                (Kind::EndMark, 2, 14),
                (Kind::Tab, 1, 1),
                (Kind::ReturnAndFeed, 2, 3),
                (Kind::OtherBlank, 2, 6),
                (Kind::Return, 1, 8),
            ]
        );
    }

    #[test]
    fn a_byte_order_mark_goes_at_the_start_only() {
        let (text, changes) = cleaned(b"\xEF\xBB\xBF7 3\n");
        assert_eq!(text, "   7 3\n");
        assert_eq!(changes, [(Kind::ByteOrderMark, 1, 0)]);
        assert_eq!(cleaned(b"7 \xEF\xBB\xBF3\n").1, []);
    }

    #[test]
    fn nul_and_ctrl_z_go_at_the_end_only() {
        assert_eq!(cleaned(b"7\x003\n").0, "7\x003\n");
        assert_eq!(cleaned(b"7\x1A3\n").0, "7\x1A3\n");
        let (text, changes) = cleaned(b"7 3\n\x1A\r\n");
        assert_eq!(text, "7 3\n  \n");
        assert_eq!(changes[0], (Kind::EndMark, 1, 4));
    }

    #[test]
    fn whole_comment_lines_go() {
        let (text, changes) = cleaned(b"# a code\n7 3\n\t#2\n1 # not here\n");
        assert_eq!(text, "        \n7 3\n   \n1 # not here\n");
        assert_eq!(changes[1], (Kind::Comment, 2, 0));
    }
}
