//! A text as numbers.

use crate::fault::Fault;
use crate::place::standing;

/// A number and where it stands.
#[derive(Clone, Copy, Debug, PartialEq, Eq)]
pub struct Number {
    pub value: u16,
    pub at: usize,
    /// Whether it is the last of its line.
    pub last: bool,
}

/// The numbers of a text up to its first wrong byte, and what is wrong there.
pub fn numbers(text: &[u8]) -> (Vec<Number>, Option<Fault>) {
    let mut numbers: Vec<Number> = Vec::new();
    let mut at = 0;
    while let Some(&byte) = text.get(at) {
        match byte {
            b' ' => at += 1,
            b'\n' => {
                end_line(&mut numbers);
                at += 1;
            }
            b'0'..=b'9' => match number(text, at) {
                Ok((number, end)) => {
                    numbers.push(number);
                    at = end;
                }
                Err(fault) => return (numbers, Some(fault)),
            },
            _ => return (numbers, Some(stray(text, at))),
        }
    }
    end_line(&mut numbers);
    (numbers, None)
}

fn end_line(numbers: &mut [Number]) {
    if let Some(number) = numbers.last_mut() {
        number.last = true;
    }
}

/// The number that begins here, and where it ends.
fn number(text: &[u8], at: usize) -> Result<(Number, usize), Fault> {
    let end = after(text, at);
    let digits = text[at..end].iter().map(|digit| u32::from(digit - b'0'));
    let value = digits.fold(0, |high, digit| (high * 10 + digit).min(100_000));
    match u16::try_from(value) {
        Ok(value) => Ok((
            Number {
                value,
                at,
                last: false,
            },
            end,
        )),
        Err(_) => {
            let what = format!("{} is above 65535", standing(text, at));
            Err(Fault::new(18, at, what))
        }
    }
}

/// Where the number that begins here ends.
pub fn after(text: &[u8], at: usize) -> usize {
    let rest = text[at..].iter();
    at + rest.take_while(|byte| byte.is_ascii_digit()).count()
}

fn stray(text: &[u8], at: usize) -> Fault {
    let what = format!(
        "{} stands where only digits, spaces and line feeds may",
        standing(text, at)
    );
    Fault::new(18, at, what)
}

#[cfg(test)]
mod tests {
    use super::*;

    fn values(text: &[u8]) -> Vec<u16> {
        numbers(text).0.iter().map(|number| number.value).collect()
    }

    #[test]
    fn numbers_stand_between_spaces_and_line_feeds() {
        assert_eq!(values(b" \n7  3\n\n00065535 0"), [7, 3, 65_535, 0]);
        assert_eq!(numbers(b"1 2\n3 4 \n 5").1, None);
        let last: Vec<bool> = numbers(b"1 2\n3 4 \n 5").0.iter().map(|n| n.last).collect();
        assert_eq!(last, [false, true, false, true, true]);
        assert_eq!(values(b""), []);
    }

    #[test]
    fn the_first_wrong_byte_is_found() {
        for (text, at) in [
            (&b"7\t3"[..], 1),
            (b"7 3\r\n", 3),
            (b"7 -3", 2),
            (b"7 3a", 3),
            (b"7 65536 x", 2),
            (b"7 99999999999999999999999999 x", 2),
        ] {
            assert_eq!(
                numbers(text).1.map(|fault| (fault.number, fault.at)),
                Some((18, at))
            );
        }
    }
}
