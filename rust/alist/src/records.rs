//! Code records as bytes.

use crate::fault::Fault;
use crate::judge::{BITS, CHECKS, DEGREES, MOST_TRIPLES};

/// The first bytes of code records.
pub const HEADER_MARK: [u8; 2] = *b"LH";
const CHECK_MARK: [u8; 2] = *b"LC";

/// A code; each check lists its bits, from 0.
#[derive(Clone, Debug, PartialEq, Eq)]
pub struct Code {
    pub bits: usize,
    pub checks: Vec<Vec<usize>>,
}

/// The triples of a check: degree - 2, and one of two bits.
pub fn triples_of(degree: usize) -> usize {
    (degree - 2).max(1)
}

impl Code {
    /// The triples of all checks.
    pub fn triples(&self) -> usize {
        self.checks
            .iter()
            .map(|check| triples_of(check.len()))
            .sum()
    }

    /// How many checks each bit lies in.
    pub fn column_degrees(&self) -> Vec<usize> {
        let mut degrees = vec![0; self.bits];
        for &bit in self.checks.iter().flatten() {
            degrees[bit] += 1;
        }
        degrees
    }
}

/// The code that the bytes hold, or the first wrong place.
pub fn read(bytes: &[u8]) -> Result<Code, Fault> {
    let mut reader = Reader { bytes, at: 0 };
    reader.mark(HEADER_MARK, "the header")?;
    let bits = reader.size("n", BITS.into_inner())?;
    let count = reader.size("m", CHECKS.into_inner())?;
    let mut code = Code {
        bits,
        checks: Vec::new(),
    };
    let mut too_many = None;
    let mut triples = 0;
    for check in 0..count {
        reader.mark(CHECK_MARK, &format!("check {check}"))?;
        let at = reader.at;
        code.checks.push(reader.check(check, bits)?);
        triples += triples_of(code.checks[check].len());
        if triples > MOST_TRIPLES && too_many.is_none() {
            let what = format!("up to check {check} the checks make {triples} triples");
            too_many = Some(Fault::new(7, at, what));
        }
    }
    reader.end()?;
    too_many.map_or(Ok(()), Err)?;
    match code.column_degrees().iter().position(|&degree| degree == 0) {
        None => Ok(code),
        Some(bit) => Err(Fault::new(
            8,
            reader.at,
            format!("bit {bit} is in no check"),
        )),
    }
}

struct Reader<'a> {
    bytes: &'a [u8],
    at: usize,
}

impl Reader<'_> {
    /// The next bytes, and where they stand.
    fn take<const N: usize>(&mut self, what: &str) -> Result<([u8; N], usize), Fault> {
        let at = self.at;
        match self.bytes[at..].first_chunk() {
            Some(&field) => {
                self.at += N;
                Ok((field, at))
            }
            None => {
                let what = format!("the bytes end where {what} is due");
                Err(Fault::new(1, self.bytes.len(), what))
            }
        }
    }

    fn number(&mut self, what: &str) -> Result<(usize, usize), Fault> {
        let (field, at) = self.take(what)?;
        Ok((u16::from_be_bytes(field).into(), at))
    }

    fn mark(&mut self, due: [u8; 2], what: &str) -> Result<(), Fault> {
        let ([high, low], at) = self.take(&format!("the mark of {what}"))?;
        if [high, low] == due {
            return Ok(());
        }
        let what = format!(
            "{high:02X} {low:02X} stands where {:02X} {:02X}, the mark of {what}, is due",
            due[0], due[1]
        );
        Err(Fault::new(2, at, what))
    }

    fn size(&mut self, name: &str, (least, most): (u16, u16)) -> Result<usize, Fault> {
        let (number, at) = self.number(name)?;
        if (least.into()..=most.into()).contains(&number) {
            return Ok(number);
        }
        let what = format!("{name} is {number}; {least} to {most} are allowed");
        Err(Fault::new(3, at, what))
    }

    /// The bits of a check, its degree first.
    fn check(&mut self, check: usize, bits: usize) -> Result<Vec<usize>, Fault> {
        let ([degree], at) = self.take(&format!("the degree of check {check}"))?;
        if !DEGREES.contains(&degree.into()) {
            let (least, most) = (DEGREES.start(), DEGREES.end());
            let what = format!("check {check} has degree {degree}; {least} to {most} are allowed");
            return Err(Fault::new(4, at, what));
        }
        let mut indices: Vec<usize> = Vec::new();
        for _ in 0..degree {
            let (index, at) = self.number(&format!("an index of check {check}"))?;
            let fault = |number, what: &str| {
                let what = format!("check {check} names bit {index}, {what}");
                Err(Fault::new(number, at, what))
            };
            if index >= bits {
                return fault(5, &format!("but the last bit is {}", bits - 1));
            }
            if indices.last().is_some_and(|&before| before >= index) {
                return fault(6, "which is not above the one before");
            }
            indices.push(index);
        }
        Ok(indices)
    }

    fn end(&self) -> Result<(), Fault> {
        if self.at == self.bytes.len() {
            return Ok(());
        }
        Err(Fault::new(9, self.at, "bytes stand after the last check"))
    }
}
