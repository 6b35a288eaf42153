//! The tests that come before a calculation.

use super::interval::Interval;
use crate::reference::{Outcome, FAULTY_ENDS, FAULTY_LENGTH, FAULTY_SIZE, MOST_EQUATIONS};

/// The number of equations, then the lengths of matrix, right side and box.
pub fn test_lengths(n: usize, lengths: [usize; 3]) -> Result<(), Outcome> {
    if n == 0 || n > MOST_EQUATIONS {
        return Err(Outcome::new(FAULTY_SIZE, 0));
    }
    let due = [2 * n * n, 2 * n, 2 * n];
    match (0..3).find(|slice| lengths[*slice] != due[*slice]) {
        Some(slice) => Err(Outcome::new(FAULTY_LENGTH, slice as u64 + 1)),
        None => Ok(()),
    }
}

/// The ends of one slice, whose first interval has the position `first`.
pub fn test_ends(numbers: &[i64], first: usize) -> Result<(), Outcome> {
    let faulty = |ends: &[i64]| !Interval::of(ends).is_valid();
    match numbers.chunks_exact(2).position(faulty) {
        Some(index) => Err(Outcome::new(FAULTY_ENDS, (first + index) as u64)),
        None => Ok(()),
    }
}

/// Writes a box, each interval lower then upper.
pub fn write(x: &[Interval], bounds: &mut [i64]) {
    for (ends, interval) in bounds.chunks_exact_mut(2).zip(x) {
        ends[0] = interval.lo;
        ends[1] = interval.hi;
    }
}
