//! Random pairs of operands, steered to where a wrong step would show.

use super::edges::{inside_values, outside_values};
use crate::generator::Random;
use crate::reference::{Interval, Operation, LIMIT, SCALE};

/// One, counted in units.
const ONE: i64 = SCALE as i64;

struct Pairs {
    random: Random,
    inside: Vec<i64>,
    operation: Operation,
}

/// An endless row of pairs for one step, always the same for the same seed.
pub fn random_pairs(operation: Operation, seed: u64) -> impl Iterator<Item = (Interval, Interval)> {
    Pairs {
        random: Random::new(seed),
        inside: inside_values(),
        operation,
    }
}

impl Iterator for Pairs {
    type Item = (Interval, Interval);

    fn next(&mut self) -> Option<Self::Item> {
        let usual = self.usual();
        Some(match self.random.below(16) {
            0 => (self.faulty(), usual.1),
            1 => (usual.0, self.faulty()),
            2 => (self.faulty(), self.faulty()),
            3..=8 => self.steered(),
            _ => usual,
        })
    }
}

/// Operands by themselves.
impl Pairs {
    /// In the range: an edge value, or any magnitude with any sign.
    fn value(&mut self) -> i64 {
        if self.random.once_in(4) {
            self.random.pick(&self.inside)
        } else {
            let magnitude = self.random.magnitude(LIMIT);
            self.random.signed(magnitude)
        }
    }

    fn outside(&mut self) -> i64 {
        if self.random.once_in(2) {
            return self.random.pick(outside_values());
        }
        let beyond = LIMIT + 1 + self.random.magnitude(i64::MAX - LIMIT - 1);
        self.random.signed(beyond)
    }

    fn valid(&mut self) -> Interval {
        let (x, y) = (self.value(), self.value());
        match self.random.below(8) {
            0 | 1 => Interval::point(x),
            2 => Interval::new(x, (x + self.random.magnitude(1_000)).min(LIMIT)),
            _ => Interval::new(x.min(y), x.max(y)),
        }
    }

    /// Valid and without 0.
    fn one_sided(&mut self) -> Interval {
        let x = self.value().abs().max(1);
        let reach = self.reach(x);
        self.mirrored(Interval::new(x, reach))
    }

    /// From `low` upwards: `low` itself, or any magnitude from there on.
    fn reach(&mut self, low: i64) -> i64 {
        if self.random.once_in(3) {
            low
        } else {
            low.max(self.value().abs())
        }
    }

    /// An interval of numbers of one sign that ends at `high`, above 0.
    fn up_to(&mut self, high: i64) -> Interval {
        if self.random.once_in(3) {
            Interval::point(high)
        } else {
            Interval::new(self.random.magnitude(high), high)
        }
    }

    /// Contains 0: mostly as an end.
    fn around_zero(&mut self) -> Interval {
        let (x, y) = (self.value().abs(), self.value().abs());
        match self.random.below(8) {
            0 => Interval::point(0),
            1..=3 => Interval::new(0, x),
            4..=6 => Interval::new(-x, 0),
            _ => Interval::new(-x, y),
        }
    }

    /// Mostly not valid: crossed, or with an end out of the range.
    fn faulty(&mut self) -> Interval {
        let (x, y) = (self.value(), self.value());
        match self.random.below(6) {
            0 | 1 => Interval::new(x.max(y), x.min(y)),
            2 => Interval::new(x, self.outside()),
            3 => Interval::new(self.outside(), x),
            4 => Interval::point(self.outside()),
            _ => Interval::new(self.outside(), self.outside()),
        }
    }

    fn mirrored(&mut self, interval: Interval) -> Interval {
        if self.random.once_in(2) {
            Interval::new(-interval.hi, -interval.lo)
        } else {
            interval
        }
    }
}

/// Pairs for one step.
impl Pairs {
    fn usual(&mut self) -> (Interval, Interval) {
        let a = self.valid();
        let b = if self.operation == Operation::Quotient {
            self.one_sided()
        } else {
            self.valid()
        };
        (a, b)
    }

    fn steered(&mut self) -> (Interval, Interval) {
        let (a, b) = match self.operation {
            Operation::Sum | Operation::Difference => self.sum_at_the_limit(),
            Operation::Product => self.steered_product(),
            Operation::Quotient => self.steered_quotient(),
        };
        (self.mirrored(a), self.mirrored(b))
    }

    /// The ends far from 0 add up to the limit or to a neighbour of it.
    fn sum_at_the_limit(&mut self) -> (Interval, Interval) {
        let x = self.value().abs().max(1);
        let y = (LIMIT - x + self.random.between(0, 2) - 1).clamp(1, LIMIT);
        (self.up_to(x), self.up_to(y))
    }

    fn steered_product(&mut self) -> (Interval, Interval) {
        let (x, y) = match self.random.below(3) {
            0 => self.product_at_the_limit(),
            1 => self.exact_product(),
            _ => self.nearly_exact_product(),
        };
        (self.up_to(x), self.up_to(y))
    }

    /// Often less than a unit from the limit, on either side of it, so that
    /// rounding decides: the chance is good where a factor is near one.
    fn product_at_the_limit(&mut self) -> (i64, i64) {
        let x = ONE + self.random.magnitude(4 * ONE);
        let y = (LIMIT * ONE / x + self.random.between(0, 1)).min(LIMIT);
        self.exchanged(x, y)
    }

    /// A whole number of units: its ends must not be moved.
    fn exact_product(&mut self) -> (i64, i64) {
        let power = 10_i64.pow(self.random.below(7) as u32);
        let x = power * self.factor(LIMIT / power);
        let y = ONE / power * self.factor(LIMIT / (ONE / power));
        (x, y)
    }

    /// A millionth of a unit away from a whole number of units.
    fn nearly_exact_product(&mut self) -> (i64, i64) {
        let x = self.without_common_factor();
        let inverse = inverse(x, ONE);
        let y = self.random.pick(&[inverse, ONE - inverse]);
        let wraps = self.random.magnitude((LIMIT - y) / ONE);
        self.exchanged(x, y + wraps * ONE)
    }

    fn steered_quotient(&mut self) -> (Interval, Interval) {
        let (x, y) = match self.random.below(4) {
            0 => return (self.valid(), self.around_zero()),
            1 => self.quotient_at_the_limit(),
            2 => self.exact_quotient(),
            _ => self.nearly_exact_quotient(),
        };
        (self.up_to(x), Interval::new(y, self.reach(y)))
    }

    /// 2000 or a neighbour of it among the quotients by this divisor.
    fn quotient_at_the_limit(&mut self) -> (i64, i64) {
        let y = self.factor(ONE);
        let x = LIMIT / ONE * y + self.random.between(0, 2) - 1;
        (x.clamp(1, LIMIT), y)
    }

    /// A whole number of units: its ends must not be moved.
    fn exact_quotient(&mut self) -> (i64, i64) {
        let power = 10_i64.pow(self.random.below(7) as u32);
        let common = self.factor(LIMIT / power);
        (common * self.factor(LIMIT / common), common * power)
    }

    /// The least possible distance away from a whole number of units.
    fn nearly_exact_quotient(&mut self) -> (i64, i64) {
        let y = self.without_common_factor().max(3);
        let inverse = inverse(ONE % y, y);
        let x = self.random.pick(&[inverse, y - inverse]);
        (x + self.random.magnitude((LIMIT - x) / y) * y, y)
    }

    fn exchanged(&mut self, x: i64, y: i64) -> (i64, i64) {
        if self.random.once_in(2) {
            (y, x)
        } else {
            (x, y)
        }
    }

    /// From 1 to `limit`, of every magnitude.
    fn factor(&mut self, limit: i64) -> i64 {
        self.random.magnitude(limit).max(1)
    }

    /// From 1 to the limit, with no factor in common with one's count.
    fn without_common_factor(&mut self) -> i64 {
        let mut x = self.factor(LIMIT);
        while x % 2 == 0 || x % 5 == 0 {
            x -= 1;
        }
        x
    }
}

/// The number below `modulus` whose product with `value` leaves rest 1, by
/// Euclid's algorithm; the two must have no common factor.
fn inverse(value: i64, modulus: i64) -> i64 {
    let (mut rest, mut next_rest) = (modulus, value % modulus);
    let (mut factor, mut next_factor) = (0, 1);
    while next_rest != 0 {
        let times = rest / next_rest;
        (rest, next_rest) = (next_rest, rest - times * next_rest);
        (factor, next_factor) = (next_factor, factor - times * next_factor);
    }
    factor.rem_euclid(modulus)
}

#[cfg(test)]
mod tests {
    use super::*;

    /// Why no maker seeks a quotient less than a unit from 2000: with operands
    /// in the range there is none. Up to divisor one the neighbours of the
    /// exact dividend are a whole unit off; above it no dividend is enough.
    #[test]
    fn no_quotient_lies_within_a_unit_of_the_limit() {
        const { assert!(LIMIT * ONE / (ONE + 1) < LIMIT - 1) };
        for y in 1..=ONE {
            let (at, wanted) = (LIMIT / ONE * y, LIMIT * y);
            assert_eq!(at * ONE, wanted);
            assert!((at + 1) * ONE - wanted >= y);
            assert!(wanted - (at - 1) * ONE >= y);
        }
    }
}
