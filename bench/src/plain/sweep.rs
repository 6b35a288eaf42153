//! The two sweep calls.

use super::interval::{row_sum, Interval};
use super::lent::{test_ends, test_lengths, write};
use crate::reference::{Outcome, Pass, DONE, EMPTY, FAULTY_ALLOWANCE, MOST_SWEEPS, SPENT};

/// Sweeps x = B·x + b over the start box.
pub fn sweep(
    pass: Pass,
    n: usize,
    b_matrix: &[i64],
    b: &[i64],
    bounds: &mut [i64],
    allowed: usize,
) -> Outcome {
    if let Err(refusal) = test(n, [b_matrix, b, bounds], allowed) {
        return refusal;
    }
    let mut x: Vec<_> = bounds.chunks_exact(2).map(Interval::of).collect();
    for count in 1..=allowed as u64 {
        match pass_once(pass, b_matrix, b, &mut x) {
            Ok(true) => (),
            Ok(false) => {
                write(&x, bounds);
                return Outcome::counted(DONE, 0, count);
            }
            Err(vat) => return Outcome::counted(EMPTY, vat as u64 + 1, count - 1),
        }
    }
    write(&x, bounds);
    Outcome::counted(SPENT, 0, allowed as u64)
}

fn test(n: usize, lent: [&[i64]; 3], allowed: usize) -> Result<(), Outcome> {
    test_lengths(n, lent.map(<[i64]>::len))?;
    if allowed == 0 || allowed > MOST_SWEEPS {
        return Err(Outcome::new(FAULTY_ALLOWANCE, 0));
    }
    let [b_matrix, b, start] = lent;
    test_ends(b_matrix, 0)?;
    test_ends(b, n * n)?;
    test_ends(start, n * n + n)
}

/// A row's shares and its vat's delivery, with the vat from 0.
type Row<'a> = (usize, (&'a [i64], &'a [i64]));

/// True if an end was changed; the vat, from 0, if its intersection is empty.
fn pass_once(pass: Pass, b_matrix: &[i64], b: &[i64], x: &mut [Interval]) -> Result<bool, usize> {
    let rows = b_matrix.chunks_exact(2 * x.len()).zip(b.chunks_exact(2));
    let rows = rows.enumerate();
    let changed = half_pass(rows.clone(), x)?;
    match pass {
        Pass::There => Ok(changed),
        Pass::ThereAndBack => Ok(half_pass(rows.rev(), x)? || changed),
    }
}

fn half_pass<'a>(rows: impl Iterator<Item = Row<'a>>, x: &mut [Interval]) -> Result<bool, usize> {
    let mut changed = false;
    for (i, (shares, delivery)) in rows {
        let shares = shares.chunks_exact(2).map(Interval::of);
        let sum = Interval::of(delivery) + row_sum(shares.zip(x.iter().copied()));
        let tightened = Interval {
            lo: sum.lo.max(x[i].lo),
            hi: sum.hi.min(x[i].hi),
        };
        if tightened.lo > tightened.hi {
            return Err(i);
        }
        changed |= tightened != x[i];
        x[i] = tightened;
    }
    Ok(changed)
}
