//! A chain of reflections: each takes over the costs that the one before wrote.

use crate::draft::wild_costs;
use crate::lent::{accepted, ensure, filled, refused};
use crate::random::Random;
use crate::sums::{sum_of, wrong_words};
use interface::Library;

/// The most words of a chain.
pub const MOST_WORDS: usize = 12;

/// Costs, and words of their length to reflect them by in turn.
#[derive(Clone, Debug)]
pub struct Chain {
    pub costs: Vec<i16>,
    pub words: Vec<Vec<u8>>,
}

/// What a reflection writes, or its number.
fn reflect(
    library: &dyn Library,
    costs: &[i16],
    word: &[u8],
) -> Result<Result<Vec<i16>, u32>, String> {
    filled(costs.len(), i16::MIN, |list| {
        library.reflect(costs, word, list)
    })
}

/// Costs reflected by each of these words in turn.
fn walked<'a>(
    library: &dyn Library,
    costs: &[i16],
    words: impl IntoIterator<Item = &'a Vec<u8>>,
) -> Result<Vec<i16>, String> {
    let mut words = words.into_iter();
    words.try_fold(costs.to_vec(), |costs, word| {
        accepted(reflect(library, &costs, word)?)
    })
}

/// Puts a word in at any place.
fn put_in(random: &mut Random, words: &mut Vec<Vec<u8>>, word: &[u8]) {
    let place = random.below(words.len() + 1);
    words.insert(place, word.to_vec());
}

impl Chain {
    /// Any costs and words of one length.
    pub fn random(random: &mut Random) -> Chain {
        let most = random.pick(&[0, 4, 40, 40, 40, 300, 300, 5_000]);
        let length = random.between(most / 10, most);
        let mut costs = wild_costs(random, length, 32_767);
        for cost in &mut costs {
            *cost = random.pick(&[-32_767, 0, 32_767, *cost, *cost]);
        }
        Chain::over(random, costs, |random| random.word(length))
    }

    /// Words for these costs: some as they are made, some equal to one before, some all 0.
    pub fn over(
        random: &mut Random,
        costs: Vec<i16>,
        make: impl Fn(&mut Random) -> Vec<u8>,
    ) -> Chain {
        let mut words: Vec<Vec<u8>> = Vec::new();
        for _ in 0..random.below(MOST_WORDS + 1) {
            let word = match random.below(8) {
                0 => vec![0; costs.len()],
                1 if !words.is_empty() => words[random.below(words.len())].clone(),
                _ => make(random),
            };
            words.push(word);
        }
        Chain { costs, words }
    }

    /// The costs at the end.
    pub fn end(&self, library: &dyn Library) -> Result<Vec<i16>, String> {
        walked(library, &self.costs, &self.words)
    }

    /// The sum of all words.
    pub fn sum(&self, library: &dyn Library) -> Result<Vec<u8>, String> {
        sum_of(library, self.costs.len(), &self.words)
    }

    /// Checks what is promised of a chain, on a library alone.
    pub fn check(&self, library: &dyn Library, random: &mut Random) -> Result<(), String> {
        let end = self.end(library)?;
        for (what, words) in self.equal_chains(random) {
            ensure(walked(library, &self.costs, &words)? == end, what)?;
        }
        let begin = walked(library, &end, self.words.iter().rev())?;
        ensure(begin == self.costs, "the chain backwards")?;
        let sum = self.sum(library)?;
        let once = walked(library, &self.costs, [&sum])?;
        ensure(once == end, "one reflection by the sum")?;
        self.check_entries(&end, &sum)?;
        self.check_refusals(library, random)
    }

    /// Other words that lead to the same costs.
    fn equal_chains(&self, random: &mut Random) -> [(&'static str, Vec<Vec<u8>>); 3] {
        let length = self.costs.len();
        let [mut zero, mut twice, mut shuffled] = [(); 3].map(|()| self.words.clone());
        put_in(random, &mut zero, &vec![0; length]);
        let word = random.word(length);
        for _ in 0..2 {
            put_in(random, &mut twice, &word);
        }
        random.shuffle(&mut shuffled);
        [
            ("a word of zeros put in", zero),
            ("a word put in twice", twice),
            ("the words in another order", shuffled),
        ]
    }

    /// Checks by counting: a cost is negated where an odd number of the words has 1, and the
    /// sum has 1 there.
    fn check_entries(&self, end: &[i16], sum: &[u8]) -> Result<(), String> {
        for (place, &cost) in self.costs.iter().enumerate() {
            let ones = self.words.iter().filter(|word| word[place] == 1).count();
            let due = if ones % 2 == 1 { (-cost, 1) } else { (cost, 0) };
            if (end[place], sum[place]) != due {
                return Err(format!("entry {place}, where {ones} words have 1"));
            }
        }
        Ok(())
    }

    /// Checks that a word that does not go with the costs is refused, somewhere in the chain.
    fn check_refusals(&self, library: &dyn Library, random: &mut Random) -> Result<(), String> {
        let before = random.below(self.words.len() + 1);
        let costs = walked(library, &self.costs, &self.words[..before])?;
        let word = random.word(costs.len());
        for (wrong, number) in wrong_words(random, &word) {
            refused(reflect(library, &costs, &wrong)?, number)?;
        }
        Ok(())
    }
}
