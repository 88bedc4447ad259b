//! The channel front.

use super::Family;
use crate::case::Case;
use crate::random::Random;
use interface::Channel;

pub fn families() -> Vec<Family> {
    vec![
        Family::listed("channel settings at the edges", edge_settings),
        Family::listed("samples at the edges", edge_samples),
        Family::random("samples of any bits", 2_000, any_samples),
        Family::random("products near halves", 2_000, near_halves),
        Family::random("damaged samples", 1_000, damaged_samples),
    ]
}

/// Floats at which something changes, and their neighbours.
fn edge_floats() -> Vec<f32> {
    let mut floats = vec![f32::NAN, f32::from_bits(0x7F80_0001), f32::INFINITY];
    for float in [
        0.0,
        f32::MIN_POSITIVE,
        1e-20,
        0.25,
        0.5,
        1.0,
        1.5,
        2.5,
        7.0,
        32_766.5,
        32_767.0,
        32_767.5,
        32_768.0,
        8_388_608.0,
        1e20,
        f32::MAX,
    ] {
        floats.extend([float, next_up(float), next_down(float)]);
    }
    let negated: Vec<f32> = floats.iter().map(|float| -float).collect();
    floats.extend(negated);
    floats
}

fn next_up(float: f32) -> f32 {
    f32::from_bits(float.to_bits() + 1)
}

fn next_down(float: f32) -> f32 {
    f32::from_bits(float.to_bits().saturating_sub(1))
}

/// Channels with this float in every place, and with a floor of zero.
fn channels(float: f32, zero: f32) -> [Channel; 5] {
    [
        Channel::Gaussian(float),
        Channel::Hard(float),
        Channel::erasing(float, 3.0),
        Channel::erasing(1.0, float),
        Channel::erasing(zero, float),
    ]
}

fn edge_settings() -> Vec<Case> {
    let mut cases = Vec::new();
    for float in edge_floats() {
        for channel in channels(float, -0.0) {
            for (samples, room) in [
                (vec![], 0),
                (vec![1.0, -1.0, 0.5, -0.0], 5),
                (vec![f32::NAN], 0),
                (vec![1.0], 0),
            ] {
                cases.push(Case::Front {
                    channel,
                    samples,
                    room,
                });
            }
        }
    }
    cases
}

fn edge_samples() -> Vec<Case> {
    let finite = edge_floats().into_iter().filter(|float| float.is_finite());
    let samples: Vec<f32> = finite.collect();
    let mut cases = Vec::new();
    for &float in samples.iter().filter(|&&float| float > 0.0) {
        for channel in channels(float, 0.0) {
            cases.push(Case::Front {
                channel,
                samples: samples.clone(),
                room: samples.len(),
            });
        }
    }
    cases
}

fn any_finite(random: &mut Random) -> f32 {
    loop {
        let float = f32::from_bits(random.any() as u32);
        if float.is_finite() {
            return float;
        }
    }
}

/// A finite float above 0, of a size near 1 or any.
fn any_factor(random: &mut Random) -> f32 {
    match random.below(3) {
        0 => next_up(any_finite(random).abs()),
        1 => random.pick(&[0.25, 0.5, 1.0, 3.0, 100.0]),
        _ => f32::from_bits(random.between(0x3000_0000, 0x4F00_0000) as u32),
    }
}

fn any_channel(random: &mut Random) -> Channel {
    let factor = any_factor(random);
    let floor = any_factor(random);
    random.pick(&[
        Channel::Gaussian(factor),
        Channel::Hard(factor),
        Channel::erasing(floor, factor),
        Channel::erasing(0.0, factor),
    ])
}

fn any_samples(random: &mut Random) -> Case {
    let channel = any_channel(random);
    let length = random.below(60);
    let sample = |random: &mut Random| match random.below(4) {
        0 => any_finite(random),
        1 => random.pick(&[0.0, -0.0, 1e-45, -1e-45]),
        2 => any_factor(random),
        _ => -any_factor(random),
    };
    Case::Front {
        channel,
        samples: (0..length).map(|_| sample(random)).collect(),
        room: length + random.below(3),
    }
}

/// Gaussian samples whose products lie at halves, or next to them.
fn near_halves(random: &mut Random) -> Case {
    let scale = match random.below(3) {
        0 => random.between(1, 4_000) as f32,
        1 => f32::from_bits(random.between(0x3F00_0000, 0x4300_0000) as u32),
        _ => f32::from_bits(random.between(0x0800_0000, 0x6000_0000) as u32),
    };
    let sample = |random: &mut Random| {
        let width = random.between(1, 15);
        let whole = random.below(1 << width);
        let sample = ((whole as f64 + 0.5) / f64::from(scale)) as f32;
        let near = random.pick(&[sample, sample, next_up(sample), next_down(sample)]);
        near * random.pick(&[1.0, -1.0])
    };
    Case::Front {
        channel: Channel::Gaussian(scale),
        samples: (0..60).map(|_| sample(random)).collect(),
        room: 60,
    }
}

fn damaged_samples(random: &mut Random) -> Case {
    let length = random.between(1, 20);
    let mut samples: Vec<f32> = (0..length).map(|_| any_factor(random)).collect();
    let mut channel = any_channel(random);
    let mut room = length + random.below(3);
    for _ in 0..random.between(1, 3) {
        let wrong = random.pick(&[f32::NAN, f32::INFINITY, f32::NEG_INFINITY]);
        match random.below(3) {
            0 => samples[random.below(length)] = wrong,
            1 => room = random.below(length),
            _ => {
                channel = match channel {
                    Channel::Gaussian(_) => Channel::Gaussian(wrong),
                    Channel::Hard(_) => Channel::Hard(-0.0),
                    Channel::Erasing(_) => Channel::erasing(wrong, 1.0),
                }
            }
        }
    }
    Case::Front {
        channel,
        samples,
        room,
    }
}
