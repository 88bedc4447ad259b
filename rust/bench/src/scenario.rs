//! Codes and frames to decode.

use crate::places::regular;
use compare::codes::{
    code_of, crowded_code, records, regular_code, training_code, with_own_check, Code,
};
use compare::draft::wild_costs;
use compare::random::Random;
use compare::two_bits::{pairs, ring};
use interface::{Channel, Library, Settings};
use reference::run::MOST_ITERATIONS;
use reference::SOUND;

/// The scale from samples of size 1 to costs.
pub const SCALE: f32 = 1000.0;

/// Settings with which decoding works at this scale.
pub const SETTINGS: Settings = Settings::new(8_000, 150, 300, 1_000_000);

const SEED: u64 = 2_026;

pub struct Scenario {
    pub name: &'static str,
    pub code: Code,
    pub records: Vec<u8>,
    /// Signal to noise, in decibels a bit of information, where the frames are noise.
    pub decibels: Option<f64>,
    pub settings: Settings,
    pub frames: Vec<Vec<i16>>,
}

impl Scenario {
    fn new(name: &'static str, code: Code, decibels: f64, count: usize) -> Scenario {
        let rate = 1.0 - code.checks.len() as f64 / code.bits as f64;
        let noise = (0.5 / (rate * 10f64.powf(decibels / 10.0))).sqrt();
        let frames = frames(code.bits, noise, count);
        Scenario {
            decibels: Some(decibels),
            ..Scenario::of(name, code, SETTINGS, frames)
        }
    }

    fn of(name: &'static str, code: Code, settings: Settings, frames: Vec<Vec<i16>>) -> Scenario {
        Scenario {
            name,
            records: records(&code),
            code,
            decibels: None,
            settings,
            frames,
        }
    }

    /// One frame, which does not settle within the most iterations that can be asked for.
    fn longest(name: &'static str, code: Code, run: (u32, u32), costs: Vec<i16>) -> Scenario {
        let (weight, ratio) = run;
        let settings = Settings::new(weight, ratio, MOST_ITERATIONS as u32, 0);
        Scenario::of(name, code, settings, vec![costs])
    }
}

/// The costs of so many received words of zeros; by reflection any other codeword takes the
/// same time.
fn frames(bits: usize, noise: f64, count: usize) -> Vec<Vec<i16>> {
    let mut random = Random::new(SEED);
    (0..count)
        .map(|_| frame(&mut random, bits, noise))
        .collect()
}

fn frame(random: &mut Random, bits: usize, noise: f64) -> Vec<i16> {
    let samples: Vec<f32> = (0..bits)
        .map(|_| (1.0 + noise * random.normal()) as f32)
        .collect();
    let mut costs = vec![0; bits];
    let number = SOUND.front(Channel::Gaussian(SCALE), &samples, &mut costs);
    assert_eq!(number, 0);
    costs
}

/// Each code at a level where most frames settle soon, and at a hard one, with so many frames.
fn levels(frames: [usize; 6]) -> Vec<Scenario> {
    vec![
        Scenario::new("easy", training_code(), 4.0, frames[0]),
        Scenario::new("hard", training_code(), 0.0, frames[1]),
        Scenario::new("easy", regular(1_008), 3.0, frames[2]),
        Scenario::new("hard", regular(1_008), 0.5, frames[3]),
        Scenario::new("easy", regular(4_096), 3.0, frames[4]),
        Scenario::new("hard", regular(4_096), 0.5, frames[5]),
    ]
}

/// These, then codes with bits in many checks.
pub fn all() -> Vec<Scenario> {
    let mixed = || code_of(&mut Random::new(SEED), 1_000, 500, 2_000);
    let mut all = levels([200, 100, 40, 8, 10, 2]);
    all.extend([
        Scenario::new("mixed easy", mixed(), 3.0, 20),
        Scenario::new("mixed hard", mixed(), 0.5, 4),
        in_32_checks(),
        limited(),
    ]);
    all
}

/// The same codes and levels, with the same frames as far as they make groups of eight, and as
/// many more as one group needs.
pub fn grouped() -> Vec<Scenario> {
    levels([200, 96, 40, 8, 8, 8])
}

/// Codes with checks of two bits, at a level where frames settle soon and at a hard one. In the
/// first four all checks have two bits, and all bits are to be equal.
pub fn two_bits() -> Vec<Scenario> {
    let equal =
        |name, code, noise, count| Scenario::of(name, code, SETTINGS, frames(1_008, noise, count));
    vec![
        equal("ring easy", ring(1_008), 0.5, 40),
        equal("ring hard", ring(1_008), 4.0, 8),
        equal("graph easy", graph(), 1.0, 40),
        equal("graph hard", graph(), 16.0, 8),
        Scenario::new("third easy", third(), 6.0, 20),
        Scenario::new("third hard", third(), 0.5, 4),
    ]
}

/// Each bit lies in four checks, all of two bits.
fn graph() -> Code {
    regular_code(&mut Random::new(SEED), 1_008, 4, 2)
}

/// A third of the checks have two bits, no bit twice.
fn third() -> Code {
    let random = &mut Random::new(SEED);
    let mut code = code_of(random, 1_008, 336, 1_344);
    code.checks
        .extend(pairs(random, 1_008, 504).checks.into_iter().take(168));
    random.shuffle(&mut code.checks);
    code
}

/// Every bit lies in 32 checks.
fn in_32_checks() -> Scenario {
    let code = regular_code(&mut Random::new(SEED), 192, 32, 3);
    Scenario::of("32 checks", code, SETTINGS, frames(192, 0.3, 4))
}

/// The same, beside a first check of three bits of its own, which never settles: nearly all
/// values are at the limit for most of the run.
fn limited() -> Scenario {
    let code = regular_code(&mut Random::new(SEED), 189, 32, 3);
    let code = with_own_check(code, 0);
    let mut frames = frames(189, 0.3, 2);
    for costs in &mut frames {
        costs.extend([-20_000; 3]);
    }
    let settings = Settings {
        tolerance: 0,
        ..SETTINGS
    };
    Scenario::of("limited", code, settings, frames)
}

/// Regular codes of growing length with a fixed number of iterations.
pub fn growing() -> Vec<Scenario> {
    let lengths = [64, 128, 256, 512, 1_024, 2_048, 4_096];
    let scenario = |bits: usize| {
        let mut scenario = Scenario::new("fixed", regular(bits), 0.5, 16_384 / bits);
        scenario.settings.limit = 50;
        scenario.settings.tolerance = 0;
        scenario
    };
    lengths.map(scenario).into()
}

/// Codes of as many triples as can be, whose frames take the most iterations.
pub fn longest() -> Vec<Scenario> {
    let random = &mut Random::new(SEED);
    let crowded = crowded_code(random, 4_096, 2_048, 6);
    let mut wild = |name, code, ratio| {
        let costs = wild_costs(random, 4_096, 32_767);
        Scenario::longest(name, code, (65_535, ratio), costs)
    };
    vec![
        wild("regular", regular(4_096), 1_023),
        wild("a bit in all checks", crowded, 0),
        unsettled_check("first check unsettled", 0),
        unsettled_check("last check unsettled", 2_047),
    ]
}

/// The first of them, cut after 50 iterations.
pub fn unsettled() -> Scenario {
    let mut scenario = longest().swap_remove(0);
    scenario.settings.limit = 50;
    scenario
}

/// The three bits of one check, at this place, never settle, all others do at once: how
/// long a total takes depends on the place.
fn unsettled_check(name: &'static str, place: usize) -> Scenario {
    let code = code_of(&mut Random::new(SEED), 4_093, 2_047, 8_191);
    let code = with_own_check(code, place);
    let costs = [vec![0; 4_093], vec![-20_000; 3]].concat();
    Scenario::longest(name, code, (256, 0), costs)
}
