//! Code records, kept flat: all indices in one list, beside the degrees.

use super::Refused;

pub struct Code {
    pub bits: usize,
    pub degrees: Vec<u8>,
    pub indices: Vec<u16>,
    /// How many checks have two bits.
    pub pairs: usize,
}

/// Takes a field of N bytes off the front.
fn take<const N: usize>(bytes: &mut &[u8]) -> Refused<[u8; N]> {
    let (field, rest) = bytes.split_first_chunk::<N>().ok_or(1u32)?;
    *bytes = rest;
    Ok(*field)
}

fn take_two(bytes: &mut &[u8]) -> Refused<u16> {
    take(bytes).map(u16::from_be_bytes)
}

/// Takes a mark, which must be L and this letter.
fn take_mark(bytes: &mut &[u8], letter: u8) -> Refused<()> {
    if take(bytes)? == [b'L', letter] {
        Ok(())
    } else {
        Err(2)
    }
}

/// Takes a header: bits and checks.
fn take_header(bytes: &mut &[u8]) -> Refused<(usize, usize)> {
    take_mark(bytes, b'H')?;
    let bits = take_two(bytes)?;
    if !(3..=4096).contains(&bits) {
        return Err(3);
    }
    let checks = take_two(bytes)?;
    if !(1..=2048).contains(&checks) {
        return Err(3);
    }
    Ok((bits.into(), checks.into()))
}

impl Code {
    pub fn read(mut bytes: &[u8]) -> Refused<Code> {
        let (bits, checks) = take_header(&mut bytes)?;
        let mut code = Code {
            bits,
            degrees: Vec::new(),
            indices: Vec::new(),
            pairs: 0,
        };
        for _ in 0..checks {
            code.take_check(&mut bytes)?;
        }
        if !bytes.is_empty() {
            Err(9)
        } else if code.triples() > 8192 {
            Err(7)
        } else {
            code.covered()?;
            Ok(code)
        }
    }

    fn take_check(&mut self, bytes: &mut &[u8]) -> Refused<()> {
        take_mark(bytes, b'C')?;
        let [degree] = take(bytes)?;
        if !(2..=32).contains(&degree) {
            return Err(4);
        }
        let mut least = 0;
        for _ in 0..degree {
            let index = take_two(bytes)?;
            if usize::from(index) >= self.bits {
                return Err(5);
            }
            if index < least {
                return Err(6);
            }
            least = index + 1;
            self.indices.push(index);
        }
        self.degrees.push(degree);
        if degree == 2 {
            self.pairs += 1;
        }
        Ok(())
    }

    /// Refuses with 8 unless each bit lies in some check.
    fn covered(&self) -> Refused<()> {
        let mut seen = [false; 4096];
        for &index in &self.indices {
            seen[usize::from(index)] = true;
        }
        if seen[..self.bits].contains(&false) {
            Err(8)
        } else {
            Ok(())
        }
    }

    /// A check of d bits makes d - 2, but one of two bits makes one.
    pub fn triples(&self) -> usize {
        self.indices.len() + self.pairs - 2 * self.degrees.len()
    }

    /// Each triple of a check but one makes an auxiliary.
    pub fn variables(&self) -> usize {
        self.bits + self.triples() - self.degrees.len()
    }

    /// The indices of each check.
    pub fn checks(&self) -> impl Iterator<Item = &[u16]> {
        let mut rest = self.indices.as_slice();
        self.degrees.iter().map(move |&degree| {
            let (check, after) = rest.split_at(usize::from(degree));
            rest = after;
            check
        })
    }

    /// The first check over which the word's sum is odd.
    pub fn odd_check(&self, word: &[u8]) -> Option<usize> {
        self.checks()
            .position(|check| check.iter().fold(0, |sum, &bit| sum ^ word[bit as usize]) == 1)
    }
}
