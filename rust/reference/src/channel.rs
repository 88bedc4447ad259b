//! The channel front: samples to costs, by the float's bits over whole numbers.

use crate::cause::Cause;
use crate::fault::Fault;
use crate::Reference;
use interface::{Channel, Erasing};

/// The parts of an f32: its size is significand * 2^exponent / 2^150.
struct Parts {
    negative: bool,
    exponent: u32,
    significand: u128,
}

fn parts(float: f32) -> Parts {
    let bits = float.to_bits();
    let field = (bits >> 23) & 0xFF;
    let fraction = u128::from(bits & 0x7F_FFFF);
    let (exponent, significand) = match field {
        // Subnormal numbers have the exponent of the smallest normal ones.
        0 => (1, fraction),
        _ => (field, fraction + 0x80_0000),
    };
    Parts {
        negative: bits >> 31 == 1,
        exponent,
        significand,
    }
}

fn is_finite(float: f32) -> bool {
    (float.to_bits() >> 23) & 0xFF != 0xFF
}

fn is_zero(float: f32) -> bool {
    float.to_bits() & 0x7FFF_FFFF == 0
}

fn is_negative(float: f32) -> bool {
    !is_zero(float) && parts(float).negative
}

fn is_positive(float: f32) -> bool {
    !is_zero(float) && !parts(float).negative
}

/// Whether the size of one finite float is below the size of another: sizes
/// are in the order of their bits without the sign.
fn is_smaller(one: f32, other: f32) -> bool {
    one.to_bits() & 0x7FFF_FFFF < other.to_bits() & 0x7FFF_FFFF
}

/// significand / 2^shift to the nearest whole number, halves up.
fn rounded_size(significand: u128, shift: u32) -> u128 {
    if shift > 100 {
        // The significand has 24 bits: the size is far below one half.
        return 0;
    }
    let divisor = 1u128 << shift;
    let below = significand / divisor;
    let rest = significand - below * divisor;
    if 2 * rest < divisor {
        below
    } else {
        below + 1
    }
}

impl Reference {
    /// The nearest whole number, halves away from zero, limited; an infinite
    /// number goes to the limit.
    fn cost_of(self, float: f32) -> i16 {
        let Parts {
            negative,
            exponent,
            significand,
        } = parts(float);
        let most = self.limit(32_767) as u128;
        let size = if exponent >= 150 {
            // The size is at least 2^23 or infinite.
            most
        } else {
            rounded_size(significand, 150 - exponent).min(most)
        };
        if negative {
            -(size as i16)
        } else {
            size as i16
        }
    }

    fn hard(self, weight: f32, sample: f32) -> i16 {
        let below = self.has(Fault::NegativeZeroIsBelow) && parts(sample).negative;
        if is_positive(sample) {
            self.cost_of(weight)
        } else if is_negative(sample) || below {
            -self.cost_of(weight)
        } else {
            0
        }
    }

    fn gaussian(self, scale: f32, sample: f32) -> i16 {
        let product = sample * scale;
        let limited = |cost: f64| cost.clamp(-32_767.0, 32_767.0) as i16;
        match self.fault {
            Some(Fault::ProductNotRounded) => {
                limited((f64::from(sample) * f64::from(scale)).round())
            }
            Some(Fault::HalfAddedAndFloored) => limited((f64::from(product) + 0.5).floor()),
            Some(Fault::InfiniteProductIsZero) if !is_finite(product) => 0,
            Some(Fault::SubnormalsFlushed) if sample.is_subnormal() => 0,
            _ => self.cost_of(product),
        }
    }

    fn cost(self, channel: Channel, sample: f32) -> i16 {
        match channel {
            Channel::Gaussian(scale) => self.gaussian(scale, sample),
            Channel::Hard(weight) => self.hard(weight, sample),
            Channel::Erasing(Erasing { floor, .. }) if is_smaller(sample, floor) => 0,
            Channel::Erasing(Erasing { weight, .. }) => self.hard(weight, sample),
        }
    }

    fn is_sound(self, channel: Channel) -> bool {
        let is_factor = |float: f32| is_finite(float) && is_positive(float);
        match channel {
            Channel::Gaussian(scale) => is_factor(scale),
            Channel::Hard(weight) => is_factor(weight),
            Channel::Erasing(Erasing { floor, weight }) => {
                let refused = self.has(Fault::NegativeZeroFloorRefused) && parts(floor).negative;
                is_finite(floor) && !is_negative(floor) && !refused && is_factor(weight)
            }
        }
    }

    pub(crate) fn try_front(
        self,
        channel: Channel,
        samples: &[f32],
        costs: &mut [i16],
    ) -> Result<(), Cause> {
        let passes = self.has(Fault::SettingNotJudgedWithoutSamples) && samples.is_empty();
        let finite = samples.iter().all(|&sample| is_finite(sample));
        self.judge(&[
            (Cause::Setting, !self.is_sound(channel) && !passes),
            (Cause::Sample, !finite),
            (Cause::ListTooShort, costs.len() < samples.len()),
        ])?;
        for (entry, &sample) in costs.iter_mut().zip(samples) {
            *entry = self.cost(channel, sample);
        }
        Ok(())
    }
}
