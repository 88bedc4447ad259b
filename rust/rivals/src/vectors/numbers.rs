//! The numbers of a text, one by one.

use crate::plain::Refused;

/// Text that is not such numbers, or not those of an alist file.
pub const TEXT: u32 = 18;

pub struct Numbers<'a> {
    rest: &'a [u8],
}

fn separates(byte: u8) -> bool {
    byte == b' ' || byte == b'\n'
}

impl<'a> Numbers<'a> {
    pub fn of(text: &'a [u8]) -> Numbers<'a> {
        Numbers { rest: text }
    }

    /// The next number, taken off with the separator behind it.
    pub fn take(&mut self) -> Refused<u16> {
        let mut bytes = self.rest.iter().copied();
        let mut byte = bytes.find(|&byte| !separates(byte)).ok_or(TEXT)?;
        let mut value = 0;
        loop {
            let digit = u32::from(byte.wrapping_sub(b'0'));
            value = 10 * value + digit;
            if digit > 9 || value > 65_535 {
                return Err(TEXT);
            }
            match bytes.next() {
                Some(next) if !separates(next) => byte = next,
                _ => break,
            }
        }
        self.rest = &self.rest[self.rest.len() - bytes.len()..];
        Ok(value as u16)
    }

    /// So many numbers.
    pub fn take_all(&mut self, count: u16) -> Refused<Vec<u16>> {
        (0..count).map(|_| self.take()).collect()
    }

    /// Refuses what is left unless it is separators.
    pub fn end(&self) -> Refused<()> {
        match self.rest.iter().all(|&byte| separates(byte)) {
            true => Ok(()),
            false => Err(TEXT),
        }
    }
}
