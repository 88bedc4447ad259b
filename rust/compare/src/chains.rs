//! Many chains of reflections, on a library alone: of any words, and of codewords with their
//! points and the runs of the reflected costs.

use crate::chain::{Chain, MOST_WORDS};
use crate::codes::{any_code, records, Code};
use crate::codewords::Codewords;
use crate::lent::{accepted, ensure, filled};
use crate::random::Random;
use crate::reflection::{all_kinds_met, Kinds, Reflection};
use crate::seeds;
use crate::sums::{check_laws, check_refusals, sum_of};
use interface::Library;
use std::collections::BTreeMap;

/// The first seed, unless another is given.
pub const SEED: u64 = 0x4348_4149;

/// What must happen in some chain of any words.
const EVENTS: [&str; 7] = [
    "no costs",
    "1,000 costs or more",
    "cost -32,767",
    "cost 32,767",
    "word of zeros",
    "equal words with a 1",
    "words with a 1 and a sum of zeros",
];

/// How often each of these was met.
#[derive(Debug, Default)]
pub struct Met {
    /// Chains of any words, by how many there are.
    chains: BTreeMap<usize, u64>,
    events: BTreeMap<&'static str, u64>,
    /// Chains of codewords, by how many there are.
    codewords: BTreeMap<usize, u64>,
    /// Outcomes of runs, where the sum of the codewords is not all 0.
    outcomes: Kinds,
}

/// Fails unless every chain holds, with chains of each length and each event often enough.
pub fn assert_chains(library: &dyn Library) {
    let met = check_chains(library, seeds::first(SEED)).unwrap();
    println!("{met:?}");
    for lengths in [&met.chains, &met.codewords] {
        assert!(lengths.keys().copied().eq(0..=MOST_WORDS));
        assert!(lengths.values().all(|&count| count >= 100));
    }
    let often = |event| met.events.get(event).is_some_and(|&count| count >= 100);
    assert!(EVENTS.into_iter().all(often));
    assert!(all_kinds_met(&met.outcomes, 100));
}

/// Checks chains, sums and points, from a seed on; what was met, or a failure.
pub fn check_chains(library: &dyn Library, first: u64) -> Result<Met, String> {
    let mut met = Met::default();
    for seed in first..first + 6_000 {
        let mut random = Random::new(seed);
        let at_seed = |what| format!("seed {seed:#x}: {what}");
        check_words(library, &mut random, &mut met).map_err(at_seed)?;
        check_codewords(library, &mut random, &mut met).map_err(at_seed)?;
    }
    Ok(met)
}

/// Checks a chain of any words, and sums of words of its length.
fn check_words(library: &dyn Library, random: &mut Random, met: &mut Met) -> Result<(), String> {
    let chain = Chain::random(random);
    *met.chains.entry(chain.words.len()).or_default() += 1;
    for (event, happens) in EVENTS.into_iter().zip(events(&chain)) {
        *met.events.entry(event).or_default() += u64::from(happens);
    }
    chain.check(library, random).map_err(of("chain"))?;
    check_laws(library, random, chain.costs.len()).map_err(of("sums"))?;
    check_refusals(library, random, chain.costs.len()).map_err(of("sums"))
}

/// Says what failed.
fn of(part: &'static str) -> impl Fn(String) -> String {
    move |what| format!("{part}: {what}")
}

/// Which of the events a chain has.
fn events(chain: &Chain) -> [bool; EVENTS.len()] {
    let Chain { costs, words } = chain;
    let ones: Vec<&Vec<u8>> = words.iter().filter(|word| word.contains(&1)).collect();
    let mut places = 0..costs.len();
    let even = places.all(|place| ones.iter().filter(|word| word[place] == 1).count() % 2 == 0);
    [
        costs.is_empty(),
        costs.len() >= 1_000,
        costs.contains(&-32_767),
        costs.contains(&32_767),
        !costs.is_empty() && ones.len() < words.len(),
        (1..ones.len()).any(|place| ones[..place].contains(&ones[place])),
        !ones.is_empty() && even,
    ]
}

/// Checks a chain of codewords: its points, and its run against the first one.
fn check_codewords(
    library: &dyn Library,
    random: &mut Random,
    met: &mut Met,
) -> Result<(), String> {
    let code = any_code(random);
    let codewords = Codewords::of(&code);
    let mut reflection = Reflection::random(random, code);
    let costs = reflection.costs.clone();
    let chain = Chain::over(random, costs, |random| codewords.random(random));
    *met.codewords.entry(chain.words.len()).or_default() += 1;
    chain.check(library, random).map_err(of("chain"))?;
    let (end, sum) = (chain.end(library)?, chain.sum(library)?);
    check_points(library, &reflection.code, &chain.words, &sum).map_err(of("points"))?;
    reflection.codeword = sum;
    let run = reflection.check_costs(library, library, &end);
    let number = run.map_err(of("run"))?;
    reflection.count(number, &mut met.outcomes);
    Ok(())
}

/// Checks that the sum of codewords is a codeword, and its point the sum of their points.
fn check_points(
    library: &dyn Library,
    code: &Code,
    codewords: &[Vec<u8>],
    sum: &[u8],
) -> Result<(), String> {
    let (variables, code) = (code.variables(), records(code));
    let tested = library.test(&code, sum).number == 0;
    ensure(tested, "the sum of codewords is no codeword")?;
    let point_of = |word: &[u8]| {
        let call = |list: &mut [u8]| library.extend(&code, word, list).number;
        accepted(filled(variables, 0xAB, call)?)
    };
    let points = codewords.iter().map(|word| point_of(word));
    let points: Vec<Vec<u8>> = points.collect::<Result<_, String>>()?;
    let equal = point_of(sum)? == sum_of(library, variables, &points)?;
    ensure(equal, "the point of the sum is not the sum of the points")
}
