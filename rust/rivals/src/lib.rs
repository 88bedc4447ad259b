//! Rivals to measure against. Two decoders, of single frames and of groups: a plain one, as a
//! good engineer would first write it, and one tuned for x86-64. One for import and export, with as much
//! memory as it likes. An encoder. The reflector and the sum of two words.

mod packed;
mod plain;
#[cfg(target_arch = "x86_64")]
mod tuned;
mod vectors;
mod words;

pub use packed::Packed;
pub use plain::Plain;
#[cfg(not(target_arch = "x86_64"))]
pub use plain::Plain as Tuned;
#[cfg(target_arch = "x86_64")]
pub use tuned::Tuned;
pub use vectors::Vectors;
pub use words::{add_words, reflect};
