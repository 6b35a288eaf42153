//! The start box call.

use super::interval::{ceiling, Interval, ONE};
use super::lent::{test_ends, test_lengths, write};
use crate::reference::{Outcome, FAULTY_SUMS, LIMIT, RESULT_OUT_OF_RANGE};

const OUT_OF_RANGE: Outcome = Outcome::new(RESULT_OUT_OF_RANGE, 0);

/// Bounds on the solutions of x = B·x + b, without elimination.
pub fn start_box(n: usize, b_matrix: &[i64], b: &[i64], bounds: &mut [i64]) -> Outcome {
    match started(n, b_matrix, b, bounds.len()) {
        Ok(x) => {
            write(&x, bounds);
            Outcome::DONE
        }
        Err(refusal) => refusal,
    }
}

fn started(n: usize, b_matrix: &[i64], b: &[i64], length: usize) -> Result<Vec<Interval>, Outcome> {
    test_lengths(n, [b_matrix.len(), b.len(), length])?;
    test_ends(b_matrix, 0)?;
    test_ends(b, n * n)?;
    let weights: Vec<_> = b.chunks_exact(2).map(magnitude).collect();
    let reach = reach(n, b_matrix, &weights)?;
    let reach = Interval::of(&[-reach, reach]);
    let ends = b.chunks_exact(2);
    ends.map(|ends| (Interval::of(ends) + reach).in_range().ok_or(OUT_OF_RANGE))
        .collect()
}

fn reach(n: usize, b_matrix: &[i64], weights: &[i64]) -> Result<i64, Outcome> {
    let rows = || b_matrix.chunks_exact(2 * n);
    let shares = |row: &[i64]| row.chunks_exact(2).map(magnitude).sum();
    let sums: Vec<i64> = rows().map(shares).collect();
    if sums.iter().all(|sum| *sum < ONE) {
        let quotients = rows().zip(sums);
        let mut quotients = quotients.map(|(row, sum)| quotient(dividend(row, weights), sum));
        return quotients.try_fold(0, |greatest, quotient| Ok(quotient?.max(greatest)));
    }
    let mut columns = vec![0; n];
    for row in rows() {
        for (sum, ends) in columns.iter_mut().zip(row.chunks_exact(2)) {
            *sum += magnitude(ends);
        }
    }
    match columns.into_iter().max() {
        Some(sum) if sum < ONE => quotient(rows().map(|row| dividend(row, weights)).sum(), sum),
        _ => Err(Outcome::new(FAULTY_SUMS, 0)),
    }
}

#[inline]
fn magnitude(ends: &[i64]) -> i64 {
    ends[0].abs().max(ends[1].abs())
}

#[inline]
fn dividend(row: &[i64], weights: &[i64]) -> i64 {
    let both = row.chunks_exact(2).zip(weights);
    both.map(|(share, weight)| ceiling(magnitude(share) * weight, ONE))
        .sum()
}

fn quotient(dividend: i64, sum: i64) -> Result<i64, Outcome> {
    let in_range = |value: i64| Some(value).filter(|v| *v <= LIMIT).ok_or(OUT_OF_RANGE);
    in_range(ceiling(in_range(dividend)? * ONE, ONE - sum))
}
