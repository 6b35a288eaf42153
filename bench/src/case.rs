//! What one call over a system is lent, and what it leaves behind.

use crate::guarded::Guarded;
use crate::reference::{laid_flat, Outcome, System};

/// The arguments of a call. The lengths need not fit the size. In place of a matrix
/// there can be a list of transfers, four numbers to each.
#[derive(Clone, Debug, Default, PartialEq, Eq)]
pub struct Case {
    pub n: usize,
    pub matrix: Vec<i64>,
    pub right_side: Vec<i64>,
    pub bounds: Vec<i64>,
}

/// The slices as a call gets them. Matrix and right side can be altered only
/// so that a forbidden change is seen. A list of transfers is not of numbers.
pub struct Slices<'a, T = i64> {
    pub matrix: &'a mut [T],
    pub right_side: &'a mut [i64],
    pub bounds: &'a mut [i64],
}

/// What a call returned and left in the three slices.
#[derive(Clone, Debug, PartialEq, Eq)]
pub struct Answer {
    pub outcome: Outcome,
    pub matrix: Guarded<i64>,
    pub right_side: Guarded<i64>,
    pub bounds: Guarded<i64>,
}

impl Case {
    /// With a box of the right length that holds noughts.
    pub fn new(system: &System) -> Case {
        let n = system.size();
        let rows = 1..=n;
        let matrix: Vec<_> = rows
            .clone()
            .flat_map(|i| (1..=n).map(move |j| system.a(i, j)))
            .collect();
        let right_side: Vec<_> = rows.map(|i| system.f(i)).collect();
        Case {
            n,
            matrix: laid_flat(&matrix),
            right_side: laid_flat(&right_side),
            bounds: vec![0; 2 * n],
        }
    }

    /// Itself, lent.
    pub fn slices(&mut self) -> Slices<'_> {
        Slices {
            matrix: &mut self.matrix,
            right_side: &mut self.right_side,
            bounds: &mut self.bounds,
        }
    }

    /// Lends copies to `call` and collects what it leaves behind.
    pub fn answer(&self, call: impl FnOnce(usize, Slices) -> Outcome) -> Answer {
        let mut matrix = Guarded::new(&self.matrix);
        let mut right_side = Guarded::new(&self.right_side);
        let mut bounds = Guarded::new(&self.bounds);
        let slices = Slices {
            matrix: matrix.lent(),
            right_side: right_side.lent(),
            bounds: bounds.lent(),
        };
        let outcome = call(self.n, slices);
        Answer {
            outcome,
            matrix,
            right_side,
            bounds,
        }
    }
}

impl Slices<'_> {
    /// The same slices, lent once more.
    pub fn again(&mut self) -> Slices<'_> {
        Slices {
            matrix: self.matrix,
            right_side: self.right_side,
            bounds: self.bounds,
        }
    }
}
