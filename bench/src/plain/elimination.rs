//! Elimination from B and b.

use super::interval::{row_sum, Interval, ONE};
use super::lent::{test_ends, test_lengths, write};
use crate::reference::{Outcome, RESULT_OUT_OF_RANGE, ZERO_DIVISOR};

/// Bounds on the solutions of x = B·x + b.
pub fn eliminate_balance(n: usize, b_matrix: &[i64], b: &[i64], bounds: &mut [i64]) -> Outcome {
    match solve(n, b_matrix, b, bounds.len()) {
        Ok(x) => {
            write(&x, bounds);
            Outcome::DONE
        }
        Err(refusal) => refusal,
    }
}

fn solve(n: usize, b_matrix: &[i64], b: &[i64], length: usize) -> Result<Vec<Interval>, Outcome> {
    test_lengths(n, [b_matrix.len(), b.len(), length])?;
    test_ends(b_matrix, 0)?;
    test_ends(b, n * n)?;
    let mut rows = form(n, b_matrix, b)?;
    reduce(n, &mut rows)?;
    substitute_back(n, &rows)
}

fn out_of_range(row: usize) -> Outcome {
    Outcome::new(RESULT_OUT_OF_RANGE, row as u64 + 1)
}

/// I − B, each row with its right side behind it.
fn form(n: usize, b_matrix: &[i64], b: &[i64]) -> Result<Vec<Interval>, Outcome> {
    let mut rows = Vec::with_capacity(n * (n + 1));
    let lent = b_matrix.chunks_exact(2 * n).zip(b.chunks_exact(2));
    for (i, (shares, delivery)) in lent.enumerate() {
        for (j, share) in shares.chunks_exact(2).enumerate() {
            let identity = Interval::point(if i == j { ONE } else { 0 });
            let entry = (identity - Interval::of(share)).in_range();
            rows.push(entry.ok_or(out_of_range(i))?);
        }
        rows.push(Interval::of(delivery));
    }
    Ok(rows)
}

fn reduce(n: usize, rows: &mut [Interval]) -> Result<(), Outcome> {
    for k in 0..n {
        take_row(n, rows, k).ok_or(Outcome::new(ZERO_DIVISOR, k as u64 + 1))?;
        let (above, below) = rows.split_at_mut((k + 1) * (n + 1));
        let upper = &above[k * (n + 1) + k..];
        for (i, row) in below.chunks_exact_mut(n + 1).enumerate() {
            reduce_row(upper, &mut row[k..]).ok_or(out_of_range(k + 1 + i))?;
        }
    }
    Ok(())
}

/// The first row from k on without 0 in column k changes places with row k.
fn take_row(n: usize, rows: &mut [Interval], k: usize) -> Option<()> {
    let width = n + 1;
    let row = (k..n).find(|i| !rows[i * width + k].contains_zero())?;
    if row != k {
        let (above, below) = rows.split_at_mut(row * width);
        above[k * width + k..][..width - k].swap_with_slice(&mut below[k..width]);
    }
    Some(())
}

/// Both rows begin at the pivot's column.
fn reduce_row(upper: &[Interval], row: &mut [Interval]) -> Option<()> {
    let factor = row[0].quotient(upper[0]).in_range()?;
    for (entry, above) in row[1..].iter_mut().zip(&upper[1..]) {
        *entry = (*entry - factor.product(*above)).in_range()?;
    }
    Some(())
}

fn substitute_back(n: usize, rows: &[Interval]) -> Result<Vec<Interval>, Outcome> {
    let mut x = vec![Interval::ZERO; n];
    for (i, row) in rows.chunks_exact(n + 1).enumerate().rev() {
        let known = row[i + 1..n].iter().zip(&x[i + 1..]);
        let sum = row_sum(known.map(|(a, x)| (*a, *x)));
        let numerator = (row[n] - sum).in_range().ok_or(out_of_range(i))?;
        let quotient = numerator.quotient(row[i]).in_range();
        x[i] = quotient.ok_or(out_of_range(i))?;
    }
    Ok(x)
}
