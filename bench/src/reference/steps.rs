//! The four single steps of document 01, written from its words alone.

use super::interval::{rounded_product, rounded_quotient, Interval, WideInterval};
use super::numbers::{FAULTY_ENDS, RESULT_OUT_OF_RANGE, ZERO_DIVISOR};

/// What a step yields.
#[derive(Clone, Copy, Debug, PartialEq, Eq)]
pub enum Step {
    Value(Interval),
    Refused { number: u64, place: u64 },
}

/// The four single steps.
#[derive(Clone, Copy, Debug, PartialEq, Eq)]
pub enum Operation {
    Sum,
    Difference,
    Product,
    Quotient,
}

impl Operation {
    pub const ALL: [Operation; 4] = [
        Operation::Sum,
        Operation::Difference,
        Operation::Product,
        Operation::Quotient,
    ];

    pub fn name(self) -> &'static str {
        match self {
            Operation::Sum => "sum",
            Operation::Difference => "difference",
            Operation::Product => "product",
            Operation::Quotient => "quotient",
        }
    }
}

/// One step by its name.
pub fn step(operation: Operation, a: Interval, b: Interval) -> Step {
    match operation {
        Operation::Sum => sum(a, b),
        Operation::Difference => difference(a, b),
        Operation::Product => product(a, b),
        Operation::Quotient => quotient(a, b),
    }
}

pub fn sum(a: Interval, b: Interval) -> Step {
    if let Some(refusal) = faulty_operand(a, b) {
        return refusal;
    }
    result(WideInterval::from(a) + WideInterval::from(b))
}

pub fn difference(a: Interval, b: Interval) -> Step {
    if let Some(refusal) = faulty_operand(a, b) {
        return refusal;
    }
    result(WideInterval::from(a) - WideInterval::from(b))
}

pub fn product(a: Interval, b: Interval) -> Step {
    if let Some(refusal) = faulty_operand(a, b) {
        return refusal;
    }
    result(rounded_product(a, b))
}

pub fn quotient(a: Interval, b: Interval) -> Step {
    if let Some(refusal) = faulty_operand(a, b) {
        return refusal;
    }
    if b.contains_zero() {
        return refused(ZERO_DIVISOR, 0);
    }
    result(rounded_quotient(a, b))
}

fn refused(number: u64, place: u64) -> Step {
    Step::Refused { number, place }
}

fn faulty_operand(a: Interval, b: Interval) -> Option<Step> {
    if !a.is_valid() {
        Some(refused(FAULTY_ENDS, 0))
    } else if !b.is_valid() {
        Some(refused(FAULTY_ENDS, 1))
    } else {
        None
    }
}

fn result(wide: WideInterval) -> Step {
    match wide.within_range() {
        Some(interval) => Step::Value(interval),
        None => refused(RESULT_OUT_OF_RANGE, 0),
    }
}

#[cfg(test)]
mod tests {
    use super::*;
    use crate::generator::random_pairs;
    use crate::reference::{LIMIT, SCALE};

    /// Every real result lies between the ends, shown at the corners and at
    /// points between them, and no end can move inward by one unit.
    fn assert_narrowest(fractions: &[(i128, i128)], value: Interval) {
        let WideInterval { lo, hi } = value.into();
        let holds = |bound: i128, (n, d): (i128, i128)| (bound * d * d).cmp(&(n * d));
        assert!(fractions.iter().all(|f| holds(lo, *f).is_le()));
        assert!(fractions.iter().all(|f| holds(hi, *f).is_ge()));
        assert!(fractions.iter().any(|f| holds(lo + 1, *f).is_gt()));
        assert!(fractions.iter().any(|f| holds(hi - 1, *f).is_lt()));
    }

    fn grid(interval: Interval) -> [i128; 5] {
        let WideInterval { lo, hi } = interval.into();
        [
            lo,
            lo + (hi - lo) / 4,
            (lo + hi) / 2,
            hi - (hi - lo) / 4,
            hi,
        ]
    }

    fn check_narrowest(operation: Operation, fraction: fn(i128, i128) -> (i128, i128)) {
        let mut accepted = 0;
        for (a, b) in random_pairs(operation, 3).take(300_000) {
            if let Step::Value(value) = step(operation, a, b) {
                let fractions: Vec<_> = grid(a)
                    .iter()
                    .flat_map(|x| grid(b).map(|y| fraction(*x, y)))
                    .collect();
                assert_narrowest(&fractions, value);
                accepted += 1;
            }
        }
        assert!(accepted > 50_000, "only {accepted} accepted");
    }

    #[test]
    fn products_are_the_narrowest_intervals() {
        check_narrowest(Operation::Product, |x, y| (x * y, SCALE));
    }

    #[test]
    fn quotients_are_the_narrowest_intervals() {
        check_narrowest(Operation::Quotient, |x, y| (x * SCALE, y));
    }

    #[test]
    fn sums_and_differences_are_exact() {
        let a = Interval::new(-5, 7);
        let b = Interval::new(10, 100);
        assert_eq!(sum(a, b), Step::Value(Interval::new(5, 107)));
        assert_eq!(difference(a, b), Step::Value(Interval::new(-105, -3)));
    }

    #[test]
    fn the_first_failing_test_decides() {
        let crossed = Interval::new(1, 0);
        let zero = Interval::point(0);
        let one = Interval::point(1);
        assert_eq!(quotient(crossed, zero), refused(3, 0));
        assert_eq!(quotient(crossed, crossed), refused(3, 0));
        assert_eq!(quotient(one, Interval::new(-3 * LIMIT, 5)), refused(3, 1));
        assert_eq!(quotient(Interval::point(LIMIT), zero), refused(5, 0));
    }

    #[test]
    fn far_ends_do_not_slip_through() {
        let zero = Interval::point(0);
        for (lo, hi) in [
            (i64::MAX, i64::MIN),
            (i64::MIN, i64::MAX),
            (i64::MIN, i64::MIN),
            (i64::MAX, i64::MAX),
            (LIMIT + 1, -LIMIT - 1),
            (-LIMIT - 1, LIMIT),
            (-LIMIT, LIMIT + 1),
            (LIMIT + 1, LIMIT + 1),
        ] {
            for operation in Operation::ALL {
                let bad = Interval::new(lo, hi);
                assert_eq!(step(operation, bad, zero), refused(3, 0));
                assert_eq!(step(operation, zero, bad), refused(3, 1));
            }
        }
    }
}
