//! The tests before a calculation, and the own copy it works on.

use super::interval::Interval;
use super::outcome::{Slice, Stop};

/// The greatest number of equations.
pub const MOST_EQUATIONS: usize = 32;

/// A matrix and a right side as intervals. Rows and columns count from 1, as
/// in the document.
#[derive(Clone, Debug, PartialEq, Eq)]
pub struct System {
    n: usize,
    matrix: Vec<Interval>,
    right_side: Vec<Interval>,
}

impl System {
    /// The matrix row by row.
    pub fn new(n: usize, matrix: Vec<Interval>, right_side: Vec<Interval>) -> System {
        assert_eq!(matrix.len(), n * n, "the matrix has the wrong size");
        assert_eq!(right_side.len(), n, "the right side has the wrong size");
        System {
            n,
            matrix,
            right_side,
        }
    }

    /// Every number is 0.
    pub fn noughts(n: usize) -> System {
        let zero = Interval::point(0);
        System::new(n, vec![zero; n * n], vec![zero; n])
    }

    pub fn size(&self) -> usize {
        self.n
    }

    pub fn a(&self, i: usize, j: usize) -> Interval {
        self.matrix[(i - 1) * self.n + (j - 1)]
    }

    pub fn f(&self, i: usize) -> Interval {
        self.right_side[i - 1]
    }

    pub fn set_a(&mut self, i: usize, j: usize, interval: Interval) {
        self.matrix[(i - 1) * self.n + (j - 1)] = interval;
    }

    pub fn set_f(&mut self, i: usize, interval: Interval) {
        self.right_side[i - 1] = interval;
    }

    pub fn exchange_rows(&mut self, first: usize, second: usize) {
        let [upper, lower] = [first, second].map(|row| (row - 1) * self.n);
        (0..self.n).for_each(|j| self.matrix.swap(upper + j, lower + j));
        self.right_side.swap(first - 1, second - 1);
    }

    /// Copies the lent numbers once they have passed every test.
    pub fn read(
        n: usize,
        matrix: &[i64],
        right_side: &[i64],
        box_length: usize,
    ) -> Result<System, Stop> {
        test_size(n)?;
        test_lengths(n, [matrix.len(), right_side.len(), box_length])?;
        let (matrix, right_side) = (intervals(matrix), intervals(right_side));
        test_ends(matrix.iter().chain(&right_side))?;
        Ok(System::new(n, matrix, right_side))
    }
}

pub(super) fn test_size(n: usize) -> Result<(), Stop> {
    if n == 0 || n > MOST_EQUATIONS {
        Err(Stop::Size)
    } else {
        Ok(())
    }
}

/// A slice that is too long has the wrong length as well.
pub(super) fn test_lengths(n: usize, given: [usize; 3]) -> Result<(), Stop> {
    let due = [2 * n * n, 2 * n, 2 * n];
    for ((slice, given), due) in Slice::ALL.into_iter().zip(given).zip(due) {
        if given != due {
            return Err(Stop::Length(slice));
        }
    }
    Ok(())
}

pub(super) fn test_ends<'a>(intervals: impl Iterator<Item = &'a Interval>) -> Result<(), Stop> {
    for (position, interval) in intervals.enumerate() {
        if !interval.is_valid() {
            return Err(Stop::Ends { position });
        }
    }
    Ok(())
}

/// Numbers in twos, each interval lower then upper.
pub fn intervals(numbers: &[i64]) -> Vec<Interval> {
    let ends = numbers.chunks_exact(2);
    ends.map(|pair| Interval::new(pair[0], pair[1])).collect()
}

/// Intervals as numbers, each lower then upper.
pub fn laid_flat(intervals: &[Interval]) -> Vec<i64> {
    let ends = intervals.iter();
    ends.flat_map(|interval| [interval.lo, interval.hi])
        .collect()
}

#[cfg(test)]
mod tests {
    use super::*;

    #[test]
    fn numbers_and_intervals_are_the_same_in_another_form() {
        let numbers = [1, 2, -3, 4];
        let read = intervals(&numbers);
        assert_eq!(read, [Interval::new(1, 2), Interval::new(-3, 4)]);
        assert_eq!(laid_flat(&read), numbers);
    }

    #[test]
    fn the_matrix_lies_row_by_row() {
        let matrix = (11..=14).map(Interval::point).collect();
        let system = System::new(2, matrix, vec![Interval::point(0); 2]);
        assert_eq!(system.a(1, 2), Interval::point(12));
        assert_eq!(system.a(2, 1), Interval::point(13));
    }
}
