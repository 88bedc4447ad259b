//! Code records: bytes from left to right, each field judged when it is whole.

use crate::cause::Cause;
use crate::fault::Fault;
use crate::{Reference, SOUND};

const HEADER_MARK: u32 = 0x4C48;
const CHECK_MARK: u32 = 0x4C43;

/// A code as its records give it; each check lists its bits in rising order.
#[derive(Clone, Debug, PartialEq, Eq)]
pub struct Code {
    pub bits: usize,
    pub checks: Vec<Vec<usize>>,
}

impl Code {
    /// The triples of all checks.
    pub fn triples(&self) -> usize {
        SOUND.triples(self)
    }

    /// Bits and auxiliaries.
    pub fn variables(&self) -> usize {
        SOUND.variables(self)
    }

    /// Whether each bit lies in some check.
    pub fn uses_every_bit(&self) -> bool {
        let mut used = vec![false; self.bits];
        for &bit in self.checks.iter().flatten() {
            used[bit] = true;
        }
        used.iter().all(|&is_used| is_used)
    }
}

/// Bytes not yet read.
pub struct Reader<'a> {
    pub reference: Reference,
    pub rest: &'a [u8],
}

impl Reader<'_> {
    /// A number of `width` bytes, the high byte first.
    pub fn number(&mut self, width: usize) -> Result<u32, Cause> {
        if self.rest.len() < width {
            return Err(Cause::Cut);
        }
        let (field, rest) = self.rest.split_at(width);
        self.rest = rest;
        Ok(field
            .iter()
            .fold(0, |high, &byte| high * 256 + u32::from(byte)))
    }

    /// A number in its range.
    pub fn number_within(
        &mut self,
        width: usize,
        (least, most): (usize, usize),
        cause: Cause,
    ) -> Result<usize, Cause> {
        let number = self.number(width)? as usize;
        let outside = !self.reference.within(number, least, most);
        self.reference.judge(&[(cause, outside)])?;
        Ok(number)
    }

    pub fn mark(&mut self, due: u32) -> Result<(), Cause> {
        if self.reference.has(Fault::CutMarkJudged) && self.rest.len() == 1 && self.rest != b"L" {
            return Err(Cause::Mark);
        }
        let other = self.number(2)? != due;
        self.reference.judge(&[(Cause::Mark, other)])
    }

    /// A header: bits and checks.
    fn header(&mut self) -> Result<(usize, usize), Cause> {
        self.mark(HEADER_MARK)?;
        if self.reference.has(Fault::SizesReadTogether) && self.rest.len() < 4 {
            return Err(Cause::Cut);
        }
        let bits = self.number_within(2, (3, 4_096), Cause::Size)?;
        if self.reference.has(Fault::RoomJudgedBeforeChecks) && bits > 512 {
            return Err(Cause::ListTooShort);
        }
        let checks = self.number_within(2, (1, 2_048), Cause::Size)?;
        Ok((bits, checks))
    }

    /// The indices of a check, in rising order.
    fn indices(&mut self, bits: usize, degree: usize) -> Result<Vec<usize>, Cause> {
        let late = self.reference.has(Fault::HighIndexJudgedLast);
        let mut check: Vec<usize> = Vec::new();
        for _ in 0..degree {
            let index = self.number(2)? as usize;
            let rises = check.last().is_none_or(|&before| before < index);
            self.reference.judge(&[
                (Cause::IndexTooHigh, index >= bits && !late),
                (Cause::IndexNotRising, !rises),
            ])?;
            check.push(index);
        }
        if late && check.iter().any(|&index| index >= bits) {
            return Err(Cause::IndexTooHigh);
        }
        Ok(check)
    }

    fn room(&self, needed: usize, held: usize) -> Result<(), Cause> {
        let short = needed > held;
        self.reference.judge(&[(Cause::ListTooShort, short)])
    }

    /// Header and checks of a code, for one who holds so many bits and triples.
    pub fn code(&mut self, most_bits: usize, most_triples: usize) -> Result<Code, Cause> {
        let (bits, count) = self.header()?;
        let mut code = Code {
            bits,
            checks: Vec::new(),
        };
        let mut triples = 0;
        self.room(bits, most_bits)?;
        for _ in 0..count {
            self.mark(CHECK_MARK)?;
            let degree = self.number_within(1, (2, 32), Cause::Degree)?;
            triples += self.reference.triples_of(degree);
            if self.reference.has(Fault::RoomJudgedBeforeIndices) {
                self.room(triples, most_triples)?;
            }
            code.checks.push(self.indices(bits, degree)?);
            self.room(triples, most_triples)?;
            if self.reference.has(Fault::TriplesJudgedAtOnce) && triples > 8_192 {
                return Err(Cause::TooManyTriples);
            }
        }
        Ok(code)
    }
}

impl Reference {
    /// A check makes degree - 2 triples, one of two bits makes one.
    pub(crate) fn triples_of(self, degree: usize) -> usize {
        match degree {
            2 if self.has(Fault::TwoBitsMakeNoTriple) => 0,
            2 => 1,
            _ => degree.saturating_sub(2),
        }
    }

    /// A check makes degree - 3 auxiliaries, one of two bits makes none.
    fn auxiliaries_of(self, degree: usize) -> usize {
        match degree {
            2 if self.has(Fault::AuxiliaryOfTwoBits) => 1,
            _ => degree.saturating_sub(3),
        }
    }

    pub(crate) fn triples(self, code: &Code) -> usize {
        let degrees = code.checks.iter().map(Vec::len);
        degrees.map(|degree| self.triples_of(degree)).sum()
    }

    pub(crate) fn variables(self, code: &Code) -> usize {
        let degrees = code.checks.iter().map(Vec::len);
        let auxiliaries = degrees.map(|degree| self.auxiliaries_of(degree));
        code.bits + auxiliaries.sum::<usize>()
    }

    /// The code that the bytes hold, with the causes against it as a whole, or the cause that
    /// ends the reading.
    pub(crate) fn read_whole(self, bytes: &[u8]) -> Result<(Code, [(Cause, bool); 3]), Cause> {
        let mut reader = Reader {
            reference: self,
            rest: bytes,
        };
        let code = reader.code(usize::MAX, usize::MAX)?;
        let causes = [
            (Cause::BytesAfter, !reader.rest.is_empty()),
            (
                Cause::TooManyTriples,
                self.triples(&code) > self.limit(8_192),
            ),
            (Cause::UnusedBit, !code.uses_every_bit()),
        ];
        Ok((code, causes))
    }

    /// The code that the bytes hold, or the first cause against them.
    pub fn read_code(self, bytes: &[u8]) -> Result<Code, Cause> {
        let (code, causes) = self.read_whole(bytes)?;
        self.judge(&causes)?;
        Ok(code)
    }
}
