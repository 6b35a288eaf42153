//! The sum of a row's products, as a sweep and a numerator take it.

use super::interval::{exact_product, Interval, WideInterval};

/// What of a row is rounded before the row itself is.
#[derive(Clone, Copy, Debug, PartialEq, Eq)]
pub enum Rounding {
    /// Nothing: 'the whole row is now summed exactly and rounded outward once',
    /// document 02, A4.
    Once,
    /// Each product, as document 01 has it and as it was before A4. It is kept so
    /// that the boxes of then and now can be compared.
    Singly,
}

impl Rounding {
    /// The sum of the products, in units. A right side has whole units: it may be added
    /// afterwards.
    pub fn sum(self, row: impl Iterator<Item = (Interval, Interval)>) -> WideInterval {
        let products = row.map(|(a, x)| exact_product(a, x));
        match self {
            Rounding::Once => total(products).rounded(),
            Rounding::Singly => total(products.map(WideInterval::rounded)),
        }
    }
}

fn total(terms: impl Iterator<Item = WideInterval>) -> WideInterval {
    terms.fold(WideInterval::ZERO, |sum, term| sum + term)
}

#[cfg(test)]
mod tests {
    use super::*;
    use crate::reference::LIMIT;

    /// By either rounding, in units.
    fn sums(row: &[(i64, i64)]) -> [[i128; 2]; 2] {
        let row = row.iter().map(|(a, x)| [*a, *x].map(Interval::point));
        [Rounding::Once, Rounding::Singly].map(|rounding| {
            let sum = rounding.sum(row.clone().map(|[a, x]| (a, x)));
            [sum.lo, sum.hi]
        })
    }

    #[test]
    fn a_row_is_rounded_once_or_each_product() {
        assert_eq!(sums(&[(500_000, 1); 2]), [[1, 1], [0, 2]]);
        assert_eq!(sums(&[(-500_000, 1); 2]), [[-1, -1], [-2, 0]]);
        assert_eq!(sums(&[(500_000, 1), (500_001, 1)]), [[1, 2], [0, 2]]);
        assert_eq!(sums(&[(-500_000, 1), (-499_999, 1)]), [[-1, 0], [-2, 0]]);
        assert_eq!(sums(&[(1, 1), (-1, 1)]), [[0, 0], [-1, 1]]);
        assert_eq!(sums(&[]), [[0, 0], [0, 0]]);
        let far = 32 * 4_000_000_000_000;
        assert_eq!(sums(&[(LIMIT, -LIMIT); 32]), [[-far, -far]; 2]);
    }
}
