//! The rounded quotient.

use crate::fault::Fault;
use crate::Reference;

impl Reference {
    /// The nearest whole number to dividend / divisor, halves away from zero.
    /// The divisor is above 0.
    pub fn nearest(self, dividend: i128, divisor: i128) -> i128 {
        assert!(divisor > 0);
        if self.has(Fault::QuotientFloored) {
            return (2 * dividend + divisor).div_euclid(2 * divisor);
        }
        let size = if dividend < 0 { -dividend } else { dividend };
        let below = size / divisor;
        let rest = size - below * divisor;
        let rounded = if 2 * rest < divisor { below } else { below + 1 };
        if dividend < 0 {
            -rounded
        } else {
            rounded
        }
    }

    /// That, limited to -most..most.
    pub fn limited_nearest(self, dividend: i128, divisor: i128, most: i128) -> i128 {
        let slip = self.slip_at_limit(dividend, divisor, most);
        slip.unwrap_or_else(|| limited(self.nearest(dividend, divisor), most))
    }

    /// What a fault makes of the limit, where it goes wrong: faults of a limit that is
    /// told by the dividend, before a division (document 02, L4).
    fn slip_at_limit(self, dividend: i128, divisor: i128, most: i128) -> Option<i128> {
        let fault = self.fault?;
        let size = dividend.abs();
        let bound = most * divisor;
        let beyond = size >= bound;
        let rounds_to_limit = !beyond && 2 * size >= (2 * most - 1) * divisor;
        let wrong = match fault {
            Fault::DividendCutBelowLimit if beyond => self.nearest(bound - 1, divisor),
            Fault::TruncatedBelowLimit if rounds_to_limit => most - 1,
            Fault::LastHalfTowardsZero if 2 * size == (2 * most - 1) * divisor => most - 1,
            Fault::LimitFromOneLess if size >= bound - divisor => most,
            Fault::LimitOneEarly if size == bound - 1 => most,
            Fault::LimitTurned if beyond => -most,
            Fault::LimitOfNextCount if beyond && size < bound + 1_024 * most => {
                self.nearest(size, divisor)
            }
            Fault::LimitOfCountBefore if divisor > 1_024 && size >= bound - 1_024 * most => most,
            _ => return None,
        };
        Some(dividend.signum() * wrong)
    }
}

/// The value, or the end of the range -limit..limit that it lies beyond.
pub fn limited(value: i128, limit: i128) -> i128 {
    if value > limit {
        limit
    } else if value < -limit {
        -limit
    } else {
        value
    }
}
