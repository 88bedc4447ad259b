//! c from S, in f32 alone.

use std::arch::x86_64::*;

// SAFETY for every block below: each x86-64 processor has SSE2.

/// U.
pub const UNIT: f32 = 16384.0;

/// 1.5 * 2^23: a sum with it is rounded to a whole number.
const ROUNDER: f32 = 12_582_912.0;

/// The most checks of a bit for which the rounding errors below stay small enough.
pub const MOST_COUNT: u32 = 7;

/// Division by one divisor: -256 / divisor in two parts. The product of the first with any S
/// up to the limit is exact; the second is smaller by a factor of 16 or more, so that errors
/// stay below 1 / (2 * divisor), the least distance of a quotient from a half that it is not.
#[derive(Clone, Copy)]
pub struct Quotient {
    /// Where the limit of c begins.
    most: __m128,
    high: __m128,
    low: __m128,
}

/// The divisor of a variable in so many triples.
pub fn divisor(count: u32, ratio: u32) -> u32 {
    1024 * count - ratio
}

/// Whether no quotient of 256 S + W L by this divisor is a half, and all are exact here.
pub fn is_exact(divisor: u32, weight: u32) -> bool {
    let dividend = weight.trailing_zeros().min(8);
    (512..=1024 * MOST_COUNT).contains(&divisor) && divisor.trailing_zeros() <= dividend
}

/// -256 / divisor, rounded so that a product with any S up to the limit fits 24 bits, and what
/// is left of it.
fn factors(divisor: u32) -> (f32, f32) {
    let factor = -256.0 / f64::from(divisor);
    let width = (64 * divisor).next_power_of_two().trailing_zeros();
    let half = 1 << (width - 1);
    let high = f32::from_bits(((factor as f32).to_bits() + half) >> width << width);
    (high, (factor - f64::from(high)) as f32)
}

impl Quotient {
    pub fn new(divisor: u32) -> Quotient {
        let (high, low) = factors(divisor);
        unsafe {
            Quotient {
                most: _mm_set1_ps(64.0 * divisor as f32),
                high: _mm_set1_ps(high),
                low: _mm_set1_ps(low),
            }
        }
    }

    /// c + U of four auxiliaries from their S.
    #[inline(always)]
    pub unsafe fn of_auxiliary(&self, sum: __m128) -> __m128 {
        let sum = self.limited(sum);
        self.rounded(sum, _mm_mul_ps(sum, self.low))
    }

    /// c + U of a bit in four frames, from S with the whole part of W L / 256; the other part is
    /// divided already.
    #[inline(always)]
    pub unsafe fn of_bit(&self, sum: __m128, part: __m128) -> __m128 {
        let sum = self.limited(sum);
        self.rounded(sum, _mm_add_ps(_mm_mul_ps(sum, self.low), part))
    }

    #[inline(always)]
    unsafe fn limited(&self, sum: __m128) -> __m128 {
        let least = _mm_sub_ps(_mm_setzero_ps(), self.most);
        _mm_max_ps(_mm_min_ps(sum, self.most), least)
    }

    /// The quotient's first part has a whole number taken out before the second is added.
    #[inline(always)]
    unsafe fn rounded(&self, sum: __m128, second: __m128) -> __m128 {
        let rounder = _mm_set1_ps(ROUNDER);
        let first = _mm_mul_ps(sum, self.high);
        let whole = _mm_add_ps(first, rounder);
        let rest = _mm_sub_ps(first, _mm_sub_ps(whole, rounder));
        let all = _mm_add_ps(whole, _mm_add_ps(rest, second));
        _mm_sub_ps(all, _mm_set1_ps(ROUNDER - UNIT))
    }
}

#[cfg(test)]
mod tests {
    use super::*;

    /// Half of the distance between neighbours among f32 of this size.
    fn rounding(size: f64) -> f64 {
        let bits = (size as f32).to_bits() + 1;
        (f64::from(f32::from_bits(bits + 1)) - f64::from(f32::from_bits(bits))) / 2.0
    }

    /// The most that the quotients by a divisor are off before they are rounded.
    fn error(divisor: u32) -> f64 {
        let (high, low) = factors(divisor);
        let most = 64.0 * f64::from(divisor);
        let missed = -256.0 / f64::from(divisor) - f64::from(high) - f64::from(low);
        let second = most * f64::from(low).abs();
        let sums = rounding(second + 0.5) + rounding(second + 1.0);
        most * missed.abs() + rounding(second) + rounding(0.5) + sums
    }

    #[test]
    fn errors_are_below_the_distance_from_a_half() {
        for divisor in 512..=1024 * MOST_COUNT {
            assert!(error(divisor) < 0.5 / f64::from(divisor), "{divisor}");
        }
    }

    #[test]
    fn first_products_are_exact() {
        for divisor in 512..=1024 * MOST_COUNT {
            let (high, _) = factors(divisor);
            let width = 24 - (64 * divisor).next_power_of_two().trailing_zeros();
            assert_eq!(high.to_bits() << (8 + width), 0, "{divisor}");
        }
    }

    /// c + U of -(256 S + rest), rounded to nearest.
    fn raised(divisor: u32, sum: i64, rest: i64) -> i64 {
        let (dividend, divisor) = (-(256 * sum + rest), i64::from(divisor));
        let size = (2 * dividend.abs() + divisor) / (2 * divisor);
        16384 + (size * dividend.signum()).clamp(-16384, 16384)
    }

    fn found(divisor: u32, sum: i64, rest: i64) -> i64 {
        let part = -(rest as f32) / divisor as f32;
        unsafe {
            let sum = _mm_set1_ps(sum as f32);
            _mm_cvtss_f32(Quotient::new(divisor).of_bit(sum, _mm_set1_ps(part))) as i64
        }
    }

    #[test]
    fn quotients_next_to_halves_are_rounded_as_they_should() {
        for divisor in (512..=1024 * MOST_COUNT).step_by(41) {
            for whole in (0..16384).step_by(97).chain([16382, 16383, 16384]) {
                let half = (2 * whole + 1) * i64::from(divisor) / 2;
                for dividend in [half - 1, half, half + 1, half + 2] {
                    for dividend in [dividend, -dividend] {
                        let (sum, rest) = (dividend >> 8, dividend & 255);
                        let tie = 2 * dividend.abs() % i64::from(2 * divisor) == divisor.into();
                        let expected = raised(divisor, sum, rest);
                        assert!(tie || found(divisor, sum, rest) == expected, "{divisor}");
                    }
                }
            }
        }
    }
}
