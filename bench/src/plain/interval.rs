//! Intervals in units. No product of two ends leaves 64 bits, but a row's sum of
//! them does before it is rounded.

use crate::reference::LIMIT;
use std::ops::{Add, Sub};

/// One, counted in units.
pub const ONE: i64 = 1_000_000;

#[derive(Clone, Copy, PartialEq, Eq)]
pub struct Interval {
    pub lo: i64,
    pub hi: i64,
}

impl Interval {
    pub const ZERO: Interval = Interval::point(0);

    pub const fn point(value: i64) -> Interval {
        Interval {
            lo: value,
            hi: value,
        }
    }

    /// Two numbers, lower then upper.
    #[inline]
    pub fn of(ends: &[i64]) -> Interval {
        Interval {
            lo: ends[0],
            hi: ends[1],
        }
    }

    #[inline]
    pub fn is_valid(self) -> bool {
        -LIMIT <= self.lo && self.lo <= self.hi && self.hi <= LIMIT
    }

    /// The same interval, unless an end is out of the range.
    #[inline]
    pub fn in_range(self) -> Option<Interval> {
        (-LIMIT <= self.lo && self.hi <= LIMIT).then_some(self)
    }

    #[inline]
    pub fn contains_zero(self) -> bool {
        self.lo <= 0 && 0 <= self.hi
    }

    /// The least and the greatest product, in units of units.
    #[inline]
    fn products(self, other: Interval) -> (i64, i64) {
        let products = [
            self.lo * other.lo,
            self.lo * other.hi,
            self.hi * other.lo,
            self.hi * other.hi,
        ];
        (least(products), greatest(products))
    }

    /// Rounded outwards to units.
    #[inline]
    pub fn product(self, other: Interval) -> Interval {
        let (least, greatest) = self.products(other);
        Interval {
            lo: floor(least, ONE),
            hi: ceiling(greatest, ONE),
        }
    }

    /// Rounded outwards to units; `other` must not contain 0.
    #[inline]
    pub fn quotient(self, other: Interval) -> Interval {
        let (lo, hi) = (self.lo * ONE, self.hi * ONE);
        let floors = [
            floor(lo, other.lo),
            floor(lo, other.hi),
            floor(hi, other.lo),
            floor(hi, other.hi),
        ];
        let ceilings = [
            ceiling(lo, other.lo),
            ceiling(lo, other.hi),
            ceiling(hi, other.lo),
            ceiling(hi, other.hi),
        ];
        Interval {
            lo: least(floors),
            hi: greatest(ceilings),
        }
    }
}

/// The sum of a row's products, rounded outwards to units once.
#[inline]
pub fn row_sum(row: impl Iterator<Item = (Interval, Interval)>) -> Interval {
    let (mut lo, mut hi) = (0_i128, 0_i128);
    for (entry, weight) in row {
        let (least, greatest) = entry.products(weight);
        lo += i128::from(least);
        hi += i128::from(greatest);
    }
    let one = i128::from(ONE);
    Interval {
        lo: lo.div_euclid(one) as i64,
        hi: -(-hi).div_euclid(one) as i64,
    }
}

impl Add for Interval {
    type Output = Interval;

    #[inline]
    fn add(self, other: Interval) -> Interval {
        Interval {
            lo: self.lo + other.lo,
            hi: self.hi + other.hi,
        }
    }
}

impl Sub for Interval {
    type Output = Interval;

    #[inline]
    fn sub(self, other: Interval) -> Interval {
        Interval {
            lo: self.lo - other.hi,
            hi: self.hi - other.lo,
        }
    }
}

#[inline]
fn least([a, b, c, d]: [i64; 4]) -> i64 {
    a.min(b).min(c.min(d))
}

#[inline]
fn greatest([a, b, c, d]: [i64; 4]) -> i64 {
    a.max(b).max(c.max(d))
}

#[inline]
fn floor(numerator: i64, denominator: i64) -> i64 {
    let quotient = numerator / denominator;
    let rest = numerator % denominator;
    if rest != 0 && (rest < 0) != (denominator < 0) {
        quotient - 1
    } else {
        quotient
    }
}

#[inline]
pub fn ceiling(numerator: i64, denominator: i64) -> i64 {
    let quotient = numerator / denominator;
    let rest = numerator % denominator;
    if rest != 0 && (rest < 0) == (denominator < 0) {
        quotient + 1
    } else {
        quotient
    }
}
