//! A row of 256 bits in four 64-bit words.

pub const MOST_BITS: usize = 256;

/// A 1 in each byte.
const ONES: u64 = 0x0101_0101_0101_0101;

/// An entry for each bit of a code.
#[derive(Clone, Copy, Default)]
pub struct Row([u64; MOST_BITS / 64]);

impl Row {
    pub fn toggle(&mut self, bit: usize) {
        self.add_entry(bit, 1);
    }

    /// Adds an entry 0 or 1 at a bit.
    pub fn add_entry(&mut self, bit: usize, entry: u8) {
        self.0[bit / 64] ^= u64::from(entry) << (bit % 64);
    }

    pub fn has(&self, bit: usize) -> bool {
        self.0[bit / 64] >> (bit % 64) & 1 == 1
    }

    pub fn add(&mut self, other: &Row) {
        self.add_times(other, 1);
    }

    /// Adds another row, or nothing where the entry is 0.
    pub fn add_times(&mut self, other: &Row, entry: u8) {
        let mask = u64::from(entry).wrapping_neg();
        for (word, other) in self.0.iter_mut().zip(other.0) {
            *word ^= other & mask;
        }
    }

    /// The first bit that the row has.
    pub fn first(&self) -> Option<usize> {
        let place = self.0.iter().position(|&word| word != 0)?;
        Some(64 * place + self.0[place].trailing_zeros() as usize)
    }

    /// The sum modulo 2 over the bits that both have.
    pub fn product(&self, other: &Row) -> u8 {
        let words = self.0.iter().zip(other.0);
        let common = words.fold(0, |common, (word, other)| common ^ word & other);
        (common.count_ones() % 2) as u8
    }

    /// Writes a byte for each of the first bits.
    pub fn spread(&self, list: &mut [u8]) {
        let bytes = self.0.iter().flat_map(|word| word.to_le_bytes());
        for (entries, byte) in list.chunks_mut(8).zip(bytes) {
            // Byte i keeps bit i alone; then every byte that is not 0 becomes 1.
            let kept = (u64::from(byte) * ONES) & 0x8040_2010_0804_0201;
            let spread = ((kept + 0x7F * ONES) >> 7) & ONES;
            entries.copy_from_slice(&spread.to_le_bytes()[..entries.len()]);
        }
    }
}
