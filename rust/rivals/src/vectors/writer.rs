//! Lines of numbers, written to a list from its front.

pub struct Writer<'a> {
    list: &'a mut [u8],
    at: usize,
}

pub fn digits(number: u16) -> usize {
    match number {
        0..=9 => 1,
        10..=99 => 2,
        100..=999 => 3,
        1_000..=9_999 => 4,
        _ => 5,
    }
}

impl<'a> Writer<'a> {
    pub fn to(list: &'a mut [u8]) -> Writer<'a> {
        Writer { list, at: 0 }
    }

    /// A number with a space behind it.
    fn number(&mut self, mut number: u16) {
        let length = digits(number);
        let field = &mut self.list[self.at..][..length + 1];
        field[length] = b' ';
        for digit in field[..length].iter_mut().rev() {
            *digit = b'0' + (number % 10) as u8;
            number /= 10;
        }
        self.at += length + 1;
    }

    /// A line of these numbers and of zeros that fill it, each with a space behind it.
    pub fn line(&mut self, numbers: &[u16], zeros: &[u8]) {
        for &number in numbers {
            self.number(number);
        }
        self.list[self.at..][..zeros.len()].copy_from_slice(zeros);
        self.at += zeros.len();
        self.list[self.at - 1] = b'\n';
    }
}
