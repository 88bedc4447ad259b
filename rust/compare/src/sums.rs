//! Sums of words, on a library alone.

use crate::lent::{accepted, ensure, filled, refused};
use crate::random::Random;
use interface::Library;

/// The sum of two words, or the number.
fn add(library: &dyn Library, word: &[u8], other: &[u8]) -> Result<Result<Vec<u8>, u32>, String> {
    filled(word.len(), 0xAB, |list| {
        library.add_words(word, other, list)
    })
}

fn added(library: &dyn Library, word: &[u8], other: &[u8]) -> Result<Vec<u8>, String> {
    accepted(add(library, word, other)?)
}

/// The sum of all these words of one length, from the word of zeros on.
pub fn sum_of(library: &dyn Library, length: usize, words: &[Vec<u8>]) -> Result<Vec<u8>, String> {
    let mut words = words.iter();
    words.try_fold(vec![0; length], |sum, word| added(library, &sum, word))
}

/// Checks the laws of a sum on random words of this length.
pub fn check_laws(library: &dyn Library, random: &mut Random, length: usize) -> Result<(), String> {
    let add = |word: &[u8], other: &[u8]| added(library, word, other);
    let [first, second, third] = [(); 3].map(|()| random.word(length));
    let zeros = vec![0; length];
    let sum = add(&first, &second)?;
    ensure(add(&second, &first)? == sum, "a sum in the other order")?;
    let last = add(&second, &third)?;
    let grouped = add(&sum, &third)? == add(&first, &last)?;
    ensure(grouped, "a sum of three grouped in the other way")?;
    let same = add(&first, &zeros)? == first && add(&zeros, &first)? == first;
    ensure(same, "a sum with the word of zeros")?;
    ensure(add(&first, &first)? == zeros, "a sum of a word with itself")
}

/// Checks that a word of another length is refused, and an entry 2, in either place.
pub fn check_refusals(
    library: &dyn Library,
    random: &mut Random,
    length: usize,
) -> Result<(), String> {
    let word = random.word(length);
    for (wrong, number) in wrong_words(random, &word) {
        refused(add(library, &word, &wrong)?, number)?;
        refused(add(library, &wrong, &word)?, number)?;
    }
    Ok(())
}

/// Words that do not go with one: longer, shorter, with an entry 2, and both; each with the
/// number that is due.
pub fn wrong_words(random: &mut Random, word: &[u8]) -> Vec<(Vec<u8>, u32)> {
    let mut wrong = vec![([word, &[1]].concat(), 12), ([word, &[2]].concat(), 12)];
    if !word.is_empty() {
        wrong.push((word[1..].to_vec(), 12));
        let mut entry = word.to_vec();
        entry[random.below(word.len())] = 2;
        wrong.push((entry, 15));
    }
    wrong
}
