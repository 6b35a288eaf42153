//! Intervals in units, their range, and the arithmetic of document 01 before
//! any test of the result.

use std::ops::{Add, Sub};

/// One, counted in units.
pub const SCALE: i128 = 1_000_000;

/// The range goes from `-LIMIT` to `LIMIT`, both included.
pub const LIMIT: i64 = 2_000_000_000;

/// Two ends in units. Any ends may be written down; a call judges them.
#[derive(Clone, Copy, Debug, PartialEq, Eq)]
pub struct Interval {
    pub lo: i64,
    pub hi: i64,
}

/// A result whose ends may lie out of the range.
#[derive(Clone, Copy, Debug, PartialEq, Eq)]
pub struct WideInterval {
    pub lo: i128,
    pub hi: i128,
}

impl Interval {
    pub const fn new(lo: i64, hi: i64) -> Interval {
        Interval { lo, hi }
    }

    pub const fn point(value: i64) -> Interval {
        Interval::new(value, value)
    }

    /// Both ends are tested against both limits, so that no crossed pair of
    /// far ends passes.
    pub fn is_valid(self) -> bool {
        in_range(i128::from(self.lo)) && in_range(i128::from(self.hi)) && self.lo <= self.hi
    }

    pub fn contains_zero(self) -> bool {
        self.lo <= 0 && 0 <= self.hi
    }
}

impl WideInterval {
    pub const ZERO: WideInterval = WideInterval { lo: 0, hi: 0 };

    /// From units of units to units, outward.
    pub fn rounded(self) -> WideInterval {
        WideInterval {
            lo: floor(self.lo, SCALE),
            hi: ceiling(self.hi, SCALE),
        }
    }

    /// The same interval, unless an end is out of the range.
    pub fn within_range(self) -> Option<Interval> {
        if in_range(self.lo) && in_range(self.hi) {
            // i64 holds the range with room to spare.
            Some(Interval::new(self.lo as i64, self.hi as i64))
        } else {
            None
        }
    }
}

impl From<Interval> for WideInterval {
    fn from(interval: Interval) -> WideInterval {
        WideInterval {
            lo: i128::from(interval.lo),
            hi: i128::from(interval.hi),
        }
    }
}

impl Add for WideInterval {
    type Output = WideInterval;

    fn add(self, other: WideInterval) -> WideInterval {
        WideInterval {
            lo: self.lo + other.lo,
            hi: self.hi + other.hi,
        }
    }
}

impl Sub for WideInterval {
    type Output = WideInterval;

    fn sub(self, other: WideInterval) -> WideInterval {
        WideInterval {
            lo: self.lo - other.hi,
            hi: self.hi - other.lo,
        }
    }
}

/// All products. A product of two counts of units is in units of units.
pub fn exact_product(a: Interval, b: Interval) -> WideInterval {
    let products = corners(a, b).map(|(x, y)| x * y);
    WideInterval {
        lo: lowest(products),
        hi: highest(products),
    }
}

/// The narrowest interval with ends in units around all products.
pub fn rounded_product(a: Interval, b: Interval) -> WideInterval {
    exact_product(a, b).rounded()
}

/// The narrowest interval with ends in units around all quotients; `b` must
/// not contain 0. The units of two counts cancel in their quotient, hence the
/// factor. Rounding keeps the sequence of the four, so the lowest may be
/// sought after it.
pub fn rounded_quotient(a: Interval, b: Interval) -> WideInterval {
    let fractions = corners(a, b).map(|(x, y)| (x * SCALE, y));
    WideInterval {
        lo: lowest(fractions.map(|(n, d)| floor(n, d))),
        hi: highest(fractions.map(|(n, d)| ceiling(n, d))),
    }
}

pub(super) fn in_range(value: i128) -> bool {
    let limit = i128::from(LIMIT);
    -limit <= value && value <= limit
}

/// The four pairs of an end of `a` with an end of `b`.
fn corners(a: Interval, b: Interval) -> [(i128, i128); 4] {
    let (a, b) = (WideInterval::from(a), WideInterval::from(b));
    [(a.lo, b.lo), (a.lo, b.hi), (a.hi, b.lo), (a.hi, b.hi)]
}

fn lowest([first, rest @ ..]: [i128; 4]) -> i128 {
    rest.into_iter().fold(first, i128::min)
}

fn highest([first, rest @ ..]: [i128; 4]) -> i128 {
    rest.into_iter().fold(first, i128::max)
}

/// Rounds towards minus infinity for every sign; `/` alone cuts towards zero.
fn floor(numerator: i128, denominator: i128) -> i128 {
    let cut = numerator / denominator;
    let rest = numerator - cut * denominator;
    if rest != 0 && (rest < 0) != (denominator < 0) {
        cut - 1
    } else {
        cut
    }
}

/// Rounds towards plus infinity for every sign.
pub(super) fn ceiling(numerator: i128, denominator: i128) -> i128 {
    -floor(-numerator, denominator)
}

#[cfg(test)]
mod tests {
    use super::*;
    use crate::generator::Random;

    fn as_many(bits: u64) -> i128 {
        i128::from(bits as i64 % 1_000)
    }

    #[test]
    fn floor_is_the_greatest_whole_number_not_above() {
        let mut random = Random::new(1);
        for _ in 0..200_000 {
            let (n, mut d) = (as_many(random.bits()), as_many(random.bits()));
            if d == 0 {
                d = 1;
            }
            let k = floor(n, d);
            // k <= n/d < k+1, multiplied out by d·d, which is above 0.
            assert!(k * d * d <= n * d && n * d < (k + 1) * d * d, "{n}/{d}");
        }
    }

    #[test]
    fn ceiling_is_the_least_whole_number_not_below() {
        let mut random = Random::new(2);
        for _ in 0..200_000 {
            let (n, mut d) = (as_many(random.bits()), as_many(random.bits()));
            if d == 0 {
                d = 1;
            }
            let k = ceiling(n, d);
            assert!((k - 1) * d * d < n * d && n * d <= k * d * d, "{n}/{d}");
        }
    }

    #[test]
    fn products_may_leave_the_range() {
        let far = rounded_product(Interval::point(LIMIT), Interval::point(-LIMIT));
        assert_eq!((far.lo, far.hi), (-4_000_000_000_000, -4_000_000_000_000));
        assert_eq!(far.within_range(), None);
    }

    #[test]
    fn an_interval_is_within_the_range_only_with_both_ends() {
        let wide = |lo: i64, hi: i64| WideInterval::from(Interval::new(lo, hi));
        let whole = Interval::new(-LIMIT, LIMIT);
        assert_eq!(wide(-LIMIT, LIMIT).within_range(), Some(whole));
        assert_eq!(wide(-LIMIT - 1, 0).within_range(), None);
        assert_eq!(wide(0, LIMIT + 1).within_range(), None);
    }
}
