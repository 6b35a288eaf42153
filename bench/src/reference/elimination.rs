//! The two elimination calls of document 01, with the row swaps of document 02's
//! A1 and the numerators of its A4, written from their words alone.

use super::interval::{rounded_product, rounded_quotient, Interval, WideInterval, SCALE};
use super::outcome::{Outcome, Phase, Stop};
use super::rows::Rounding;
use super::system::{laid_flat, System};

/// The two calls.
#[derive(Clone, Copy, Debug, PartialEq, Eq)]
pub enum Call {
    /// Over A and f.
    Eliminate,
    /// Over B and b.
    EliminateBalance,
}

impl Call {
    pub const ALL: [Call; 2] = [Call::Eliminate, Call::EliminateBalance];

    pub fn name(self) -> &'static str {
        match self {
            Call::Eliminate => "eliminate",
            Call::EliminateBalance => "eliminate_balance",
        }
    }
}

/// How a call went.
#[derive(Clone, Debug)]
pub struct Trace {
    /// The own copy as the calculation left it, if it began. From the diagonal
    /// on, a row stands as it did when its pivot was taken.
    pub copy: Option<System>,
    /// The steps that swapped rows.
    pub swaps: Vec<usize>,
    pub end: Result<Vec<Interval>, Stop>,
}

/// From A·x = f.
pub fn eliminate(n: usize, a: &[i64], f: &[i64], bounds: &mut [i64]) -> Outcome {
    trace(Rounding::Once, Call::Eliminate, n, [a, f], bounds.len()).finish(bounds)
}

/// From x = B·x + b.
pub fn eliminate_balance(n: usize, b_matrix: &[i64], b: &[i64], bounds: &mut [i64]) -> Outcome {
    let call = Call::EliminateBalance;
    trace(Rounding::Once, call, n, [b_matrix, b], bounds.len()).finish(bounds)
}

/// One call over matrix and right side with all that can be known of it. Of the box
/// only the length counts.
pub fn trace(rounding: Rounding, call: Call, n: usize, lent: [&[i64]; 2], length: usize) -> Trace {
    match System::read(n, lent[0], lent[1], length) {
        Ok(system) => calculated(rounding, call, system),
        Err(stop) => Trace {
            copy: None,
            swaps: Vec::new(),
            end: Err(stop),
        },
    }
}

/// The calculation of one call on intervals that have passed every test.
pub fn calculate(call: Call, copy: System) -> Trace {
    calculated(Rounding::Once, call, copy)
}

fn calculated(rounding: Rounding, call: Call, mut copy: System) -> Trace {
    let mut swaps = Vec::new();
    let end = forward(call, &mut copy, &mut swaps);
    let end = end.and_then(|()| substitute_back(rounding, &copy));
    Trace {
        copy: Some(copy),
        swaps,
        end,
    }
}

impl Trace {
    pub fn outcome(&self) -> Outcome {
        match self.end {
            Ok(_) => Outcome::DONE,
            Err(stop) => stop.into(),
        }
    }

    /// Writes the box if all is done.
    pub fn finish(&self, bounds: &mut [i64]) -> Outcome {
        if let Ok(solution) = &self.end {
            bounds.copy_from_slice(&laid_flat(solution));
        }
        self.outcome()
    }
}

fn forward(call: Call, copy: &mut System, swaps: &mut Vec<usize>) -> Result<(), Stop> {
    if call == Call::EliminateBalance {
        form_from_balance(copy)?;
    }
    reduce(copy, swaps)
}

/// B becomes I − B.
fn form_from_balance(copy: &mut System) -> Result<(), Stop> {
    let one = Interval::point(SCALE as i64);
    let zero = Interval::point(0);
    for i in 1..=copy.size() {
        for j in 1..=copy.size() {
            let identity = if i == j { one } else { zero };
            let entry = WideInterval::from(identity) - copy.a(i, j).into();
            copy.set_a(i, j, tested(entry, Phase::Forming, i)?);
        }
    }
    Ok(())
}

/// Step n has no rows below it, but it takes its pivot too.
fn reduce(copy: &mut System, swaps: &mut Vec<usize>) -> Result<(), Stop> {
    let n = copy.size();
    for k in 1..=n {
        let row = lowest_row(copy, k)?;
        if row != k {
            copy.exchange_rows(k, row);
            swaps.push(k);
        }
        for i in k + 1..=n {
            reduce_row(copy, k, i)?;
        }
    }
    Ok(())
}

/// The first row from k on, as they now stand, that has no 0 in column k.
fn lowest_row(copy: &System, k: usize) -> Result<usize, Stop> {
    let mut rows = k..=copy.size();
    let found = rows.find(|i| !copy.a(*i, k).contains_zero());
    found.ok_or(Stop::Pivot { k })
}

/// Takes from row i so many times row k; a(i,k) itself is not used again.
fn reduce_row(copy: &mut System, k: usize, i: usize) -> Result<(), Stop> {
    let quotient = rounded_quotient(copy.a(i, k), copy.a(k, k));
    let factor = tested(quotient, Phase::Factor, i)?;
    for j in k + 1..=copy.size() {
        let entry = WideInterval::from(copy.a(i, j)) - rounded_product(factor, copy.a(k, j));
        copy.set_a(i, j, tested(entry, Phase::Entry, i)?);
    }
    let right_side = WideInterval::from(copy.f(i)) - rounded_product(factor, copy.f(k));
    copy.set_f(i, tested(right_side, Phase::RightSide, i)?);
    Ok(())
}

fn substitute_back(rounding: Rounding, copy: &System) -> Result<Vec<Interval>, Stop> {
    let n = copy.size();
    let mut x = vec![Interval::point(0); n];
    for i in (1..=n).rev() {
        let numerator = tested(numerator(rounding, copy, &x, i), Phase::Numerator, i)?;
        let quotient = rounded_quotient(numerator, copy.a(i, i));
        x[i - 1] = tested(quotient, Phase::Quotient, i)?;
    }
    Ok(x)
}

/// f(i) less the products with the x(j) right of the diagonal, before its test.
pub fn numerator(rounding: Rounding, copy: &System, x: &[Interval], i: usize) -> WideInterval {
    let right_of_diagonal = i + 1..=copy.size();
    let sum = rounding.sum(right_of_diagonal.map(|j| (copy.a(i, j), x[j - 1])));
    WideInterval::from(copy.f(i)) - sum
}

fn tested(result: WideInterval, phase: Phase, row: usize) -> Result<Interval, Stop> {
    let stop = Stop::OutOfRange { phase, row };
    result.within_range().ok_or(stop)
}

#[cfg(test)]
mod tests {
    use super::*;

    const ONE: i64 = 1_000_000;

    /// Points in units, row by row.
    fn points<const N: usize>(values: [i64; N]) -> Vec<i64> {
        values
            .into_iter()
            .flat_map(|value| [value, value])
            .collect()
    }

    /// Over A and f; the box is given back if it was written.
    fn solve(n: usize, a: &[i64], f: &[i64]) -> Result<Vec<i64>, (u64, u64)> {
        let garbage = 77;
        let mut bounds = vec![garbage; 2 * n];
        let outcome = eliminate(n, a, f, &mut bounds);
        assert_eq!(outcome.count, 0);
        if outcome == Outcome::DONE {
            return Ok(bounds);
        }
        assert!(bounds.iter().all(|number| *number == garbage));
        Err((outcome.number, outcome.place))
    }

    /// 3x + y = 1 and x + y = 1. The factor is [0.333333, 0.333334], second
    /// pivot and right side become [0.666666, 0.666667], and so on by hand.
    #[test]
    fn every_product_and_quotient_is_rounded_outward() {
        let a = points([3 * ONE, ONE, ONE, ONE]);
        let f = points([ONE, ONE]);
        assert_eq!(solve(2, &a, &f), Ok(vec![-1, 1, 999_998, 1_000_002]));
    }

    #[test]
    fn a_result_out_of_the_range_precedes_the_next_pivot() {
        let mut a = [ONE, 0, -2 * ONE, 0, 0, 0, 2_000 * ONE, 0, ONE];
        let f = points([0, 0, 0]);
        assert_eq!(solve(3, &points(a), &f), Err((6, 3)));
        a[2] = 0;
        assert_eq!(solve(3, &points(a), &f), Err((5, 2)));
    }

    /// Rows 1 and 2 change places, then rows 2 and 3: the weights keep theirs.
    #[test]
    fn rows_are_swapped_and_weights_keep_their_places() {
        let a = points([0, 0, 2 * ONE, 4 * ONE, 0, 0, 0, ONE, 0]);
        let f = points([6 * ONE, 4 * ONE, 2 * ONE]);
        assert_eq!(solve(3, &a, &f), Ok(points([ONE, 2 * ONE, 3 * ONE])));
    }

    /// [0, 0.200001] is row 1 as lent, and row 2 once it has been swapped.
    #[test]
    fn a_refusal_names_the_row_by_its_new_place() {
        let a = [0, 200_001, 0, 0, 100, 100, ONE, ONE];
        assert_eq!(solve(2, &a, &points([0, 0])), Err((6, 2)));
    }

    /// The first row that serves is taken, though the second one is greater.
    #[test]
    fn the_lowest_row_that_serves_is_taken() {
        let a = points([0, ONE, 0, 3 * ONE, 0, 0, 4 * ONE, 0, ONE]);
        let f = points([0, ONE, 0]);
        let x = vec![333_333, 333_334, 0, 0, -1_333_334, -1_333_333];
        assert_eq!(solve(3, &a, &f), Ok(x));
    }

    #[test]
    fn a_factor_is_tested_whatever_it_meets() {
        let f = points([0, 0]);
        let a = |dividend| points([100, 0, dividend, ONE]);
        assert_eq!(solve(2, &a(200_000), &f), Ok(vec![0; 4]));
        assert_eq!(solve(2, &a(200_001), &f), Err((6, 2)));
    }

    #[test]
    fn a_numerator_is_tested_before_it_is_divided() {
        let a = points([4 * ONE, 2 * ONE, 0, ONE]);
        let f = |first| points([first, -1_000 * ONE]);
        let solution = points([500 * ONE, -1_000 * ONE]);
        assert_eq!(solve(2, &a, &f(0)), Ok(solution));
        assert_eq!(solve(2, &a, &f(1)), Err((6, 1)));
    }

    /// Two products of 4,000,000 each.
    #[test]
    fn products_and_partial_sums_may_leave_the_range() {
        let far = 2_000 * ONE;
        let a = points([ONE, far, -far, 0, ONE, 0, 0, 0, ONE]);
        let f = points([ONE, far, far]);
        assert_eq!(solve(3, &a, &f), Ok(points([ONE, far, far])));
    }

    /// [−2000, 2000] / [1, 3] is a factor; times the pivot it would be
    /// [−6000, 6000], but the entry under the pivot is not used again.
    #[test]
    fn the_entry_under_the_pivot_is_not_made() {
        let far = 2_000 * ONE;
        let a = [ONE, 3 * ONE, 0, 0, -far, far, ONE, ONE];
        assert_eq!(solve(2, &a, &points([0, ONE])), Ok(vec![0, 0, ONE, ONE]));
    }

    #[test]
    fn a_diagonal_share_may_be_as_low_as_1_less_2000() {
        let mut bounds = [3, -3];
        let b = points([2_000 * ONE]);
        let lowest = points([-1_999 * ONE]);
        let too_low = points([-1_999 * ONE - 1]);
        let refused = eliminate_balance(1, &too_low, &b, &mut bounds);
        assert_eq!((refused, bounds), (Outcome::new(6, 1), [3, -3]));
        let accepted = eliminate_balance(1, &lowest, &b, &mut bounds);
        assert_eq!((accepted, bounds), (Outcome::DONE, [ONE, ONE]));
    }

    #[test]
    fn forming_precedes_every_pivot() {
        let b_matrix = points([ONE, 0, 0, -1_999 * ONE - 1]);
        let mut bounds = [0; 4];
        let outcome = eliminate_balance(2, &b_matrix, &points([0, 0]), &mut bounds);
        assert_eq!(outcome, Outcome::new(6, 2));
    }

    #[test]
    fn one_equation_has_only_its_last_pivot() {
        assert_eq!(solve(1, &[0, ONE], &[0, 0]), Err((5, 1)));
        assert_eq!(solve(1, &[-ONE, 0], &[0, 0]), Err((5, 1)));
        assert_eq!(solve(1, &[1, 1], &[0, 0]), Ok(vec![0, 0]));
    }
}
