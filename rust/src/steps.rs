//! The four single steps.

use crate::raw::{self, KifwalebStep};

/// A lower and an upper end in units. Any ends may be written down; a call
/// judges them.
///
/// ```
/// use kifwaleb::{sum, Interval, Step};
/// let crossed = Interval { lo: 1, hi: 0 };
/// assert_eq!(sum(Interval::point(5), crossed), Step::BadOperand(1));
/// ```
#[derive(Clone, Copy, Debug, PartialEq, Eq)]
pub struct Interval {
    /// The lower end.
    pub lo: i64,
    /// The upper end.
    pub hi: i64,
}

impl Interval {
    /// The interval of a single number.
    ///
    /// ```
    /// use kifwaleb::Interval;
    /// assert_eq!(Interval::point(7), Interval { lo: 7, hi: 7 });
    /// ```
    pub const fn point(units: i64) -> Interval {
        Interval {
            lo: units,
            hi: units,
        }
    }
}

/// What a single step answers; the first that applies.
///
/// ```
/// use kifwaleb::{product, Interval, Step, HIGHEST};
/// let answer = product(Interval::point(HIGHEST), Interval::point(1_000_001));
/// assert_eq!(answer, Step::OutOfRange);
/// ```
#[derive(Clone, Copy, Debug, PartialEq, Eq)]
pub enum Step {
    /// The result.
    Value(Interval),
    /// This operand, 0 or 1, has its ends out of sequence or out of the range.
    BadOperand(usize),
    /// The divisor contains 0, its ends included.
    ZeroDivisor,
    /// An end of the result is out of the range.
    OutOfRange,
}

/// The exact sum.
///
/// ```
/// use kifwaleb::{sum, Interval, Step};
/// let sum = sum(Interval { lo: 1, hi: 2 }, Interval { lo: -9, hi: 5 });
/// assert_eq!(sum, Step::Value(Interval { lo: -8, hi: 7 }));
/// ```
pub fn sum(a: Interval, b: Interval) -> Step {
    // SAFETY: plain numbers, of which any are accepted; so for each step.
    unsafe { raw::kifwaleb_sum(a.lo, a.hi, b.lo, b.hi) }.into()
}

/// The exact difference, `a` less `b`.
///
/// ```
/// use kifwaleb::{difference, Interval, Step};
/// let difference = difference(Interval { lo: 1, hi: 2 }, Interval { lo: -9, hi: 5 });
/// assert_eq!(difference, Step::Value(Interval { lo: -4, hi: 11 }));
/// ```
pub fn difference(a: Interval, b: Interval) -> Step {
    unsafe { raw::kifwaleb_difference(a.lo, a.hi, b.lo, b.hi) }.into()
}

/// The narrowest interval with ends in units that holds every product of a
/// number in `a` and one in `b`.
///
/// ```
/// use kifwaleb::{product, Interval, Step};
/// let product = product(Interval::point(-1), Interval::point(500_000));
/// assert_eq!(product, Step::Value(Interval { lo: -1, hi: 0 }));
/// ```
pub fn product(a: Interval, b: Interval) -> Step {
    unsafe { raw::kifwaleb_product(a.lo, a.hi, b.lo, b.hi) }.into()
}

/// The narrowest interval with ends in units that holds every quotient of a
/// number in `a` by one in `b`.
///
/// ```
/// use kifwaleb::{quotient, Interval, Step};
/// let one = Interval::point(1_000_000);
/// let third = quotient(one, Interval::point(-3_000_000));
/// assert_eq!(third, Step::Value(Interval { lo: -333_334, hi: -333_333 }));
/// assert_eq!(quotient(one, Interval { lo: 0, hi: 1 }), Step::ZeroDivisor);
/// ```
pub fn quotient(a: Interval, b: Interval) -> Step {
    unsafe { raw::kifwaleb_quotient(a.lo, a.hi, b.lo, b.hi) }.into()
}

impl From<KifwalebStep> for Step {
    /// Panics at a number that no step returns: the archive is then of another
    /// version.
    fn from(given: KifwalebStep) -> Step {
        match given.number {
            0 => Step::Value(Interval {
                lo: given.lo,
                hi: given.hi,
            }),
            3 => Step::BadOperand(given.place as usize),
            5 => Step::ZeroDivisor,
            6 => Step::OutOfRange,
            number => panic!("the archive returned {number} for a step"),
        }
    }
}
