//! The start box of document 02, A2, written from its words and from procedure
//! ITERATION 1 of document 003.

use super::interval::{ceiling, in_range, Interval, WideInterval, SCALE};
use super::outcome::{Outcome, Phase, Stop};
use super::system::{laid_flat, System};

/// Which sums of magnitudes are all below one.
#[derive(Clone, Copy, Debug, PartialEq, Eq)]
pub enum Sums {
    Rows,
    Columns,
}

/// Bounds on the solutions of x = B·x + b, without elimination.
pub fn start_box(n: usize, b_matrix: &[i64], b: &[i64], bounds: &mut [i64]) -> Outcome {
    let balance = System::read(n, b_matrix, b, bounds.len());
    match balance.and_then(|balance| started(&balance)) {
        Ok((_, start)) => {
            bounds.copy_from_slice(&laid_flat(&start));
            Outcome::DONE
        }
        Err(stop) => stop.into(),
    }
}

/// The calculation on a balance that has passed the tests 1, 2 and 3.
pub fn started(balance: &System) -> Result<(Sums, Vec<Interval>), Stop> {
    let below_one = |sums: &[i128]| sums.iter().all(|sum| *sum < SCALE);
    let dividends = (1..=balance.size()).map(|i| row_product(balance, i));
    let (by, divisions): (_, Vec<_>) = match sums(balance) {
        [rows, _] if below_one(&rows) => (Sums::Rows, dividends.zip(rows).collect()),
        [_, columns] if below_one(&columns) => {
            let greatest = columns.into_iter().fold(0, i128::max);
            (Sums::Columns, vec![(dividends.sum(), greatest)])
        }
        _ => return Err(Stop::Sums),
    };
    let out_of_range = |phase| Stop::OutOfRange { phase, row: 0 };
    let tested = |value, phase| {
        Some(value)
            .filter(|v| in_range(*v))
            .ok_or(out_of_range(phase))
    };
    let mut reach = 0;
    for (dividend, sum) in divisions {
        let dividend = tested(dividend, Phase::Dividend)?;
        let quotient = ceiling(dividend * SCALE, SCALE - sum);
        reach = tested(quotient, Phase::Quotient)?.max(reach);
    }
    let ends = (1..=balance.size()).map(|i| widened(balance.f(i), reach));
    let bounds: Option<_> = ends.collect();
    Ok((by, bounds.ok_or(out_of_range(Phase::End))?))
}

/// The row sums and the column sums of magnitudes.
pub fn sums(balance: &System) -> [Vec<i128>; 2] {
    let all = || 1..=balance.size();
    let share = |i, j| magnitude(balance.a(i, j));
    let rows = all().map(|i| all().map(|j| share(i, j)).sum());
    let columns = all().map(|j| all().map(|i| share(i, j)).sum());
    [rows.collect(), columns.collect()]
}

fn magnitude(interval: Interval) -> i128 {
    let WideInterval { lo, hi } = interval.into();
    lo.abs().max(hi.abs())
}

/// Row i of |B|·|b|, each product rounded up by itself.
fn row_product(balance: &System, i: usize) -> i128 {
    let columns = 1..=balance.size();
    let products = columns.map(|j| magnitude(balance.a(i, j)) * magnitude(balance.f(j)));
    products.map(|product| ceiling(product, SCALE)).sum()
}

fn widened(delivery: Interval, reach: i128) -> Option<Interval> {
    let WideInterval { lo, hi } = delivery.into();
    let (lo, hi) = (lo - reach, hi + reach);
    WideInterval { lo, hi }.within_range()
}

#[cfg(test)]
mod tests {
    use super::*;

    const ONE: i64 = 1_000_000;

    fn run(shares: &[i64], deliveries: &[i64]) -> (u64, Vec<i64>) {
        let mut bounds = vec![-7; deliveries.len()];
        let outcome = start_box(deliveries.len() / 2, shares, deliveries, &mut bounds);
        (outcome.number, bounds)
    }

    /// 0.2 · 9 / 0.8 is 2.25.
    #[test]
    fn one_vat_reaches_as_far_as_worked_out_by_hand() {
        for share in [[100_000, 200_000], [-200_000, 100_000]] {
            let bounds = vec![6_750_000, 11_250_000];
            assert_eq!(run(&share, &[9 * ONE; 2]), (0, bounds));
            let bounds = vec![-11_250_000, 2_250_000];
            assert_eq!(run(&share, &[-9 * ONE, 0]), (0, bounds));
        }
    }

    /// 0.3 and 0.4 of a unit are a unit each, and 2 units over 0.3 are 7.
    #[test]
    fn products_and_quotient_are_rounded_up_singly() {
        let shares = [300_000, 300_000, 400_000, 400_000, 0, 0, 0, 0];
        assert_eq!(run(&shares, &[1; 4]), (0, vec![-6, 8, -6, 8]));
    }

    /// Row 1 comes to 1.8, the columns to 0.9: 2.7 / 0.1.
    #[test]
    fn columns_serve_if_a_row_does_not() {
        let shares = [900_000, 900_000, -900_000, 0, 0, 0, 0, 0];
        let bounds = vec![-26 * ONE, 28 * ONE, -25 * ONE, 29 * ONE];
        assert_eq!(run(&shares, &[ONE, ONE, 2 * ONE, 2 * ONE]), (0, bounds));
    }

    #[test]
    fn sums_of_one_are_refused_and_a_unit_less_is_not() {
        assert_eq!(run(&[0, ONE], &[0, 0]), (10, vec![-7, -7]));
        assert_eq!(run(&[1 - ONE, 0], &[1, 1]), (0, vec![-999_999, 1_000_001]));
        assert_eq!(run(&[1 - ONE, 0], &[2_000; 2]), (6, vec![-7, -7]));
    }
}
