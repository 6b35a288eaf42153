//! An elimination and sweeps from a list of transfers in place of the matrix.

use crate::systems::lend;
use crate::{raw, Outcome, Swept};

/// One share of a list: \[lo, hi\] of what passes through the giving vat goes on into the
/// receiving vat. Vats count from 1.
///
/// A list has at most [`MOST_TRANSFERS`](crate::MOST_TRANSFERS) of them, which may be none,
/// sorted by receiving and then by giving vat, each pair of vats at most once. It stands for
/// the matrix B with the receiving vat as its row and the giving vat as its column; the share
/// of a pair that is not listed is 0.
///
/// ```
/// use kifwaleb::{eliminate_transfers, Outcome, Refusal, Transfer};
/// let half = |receiver, giver| Transfer { receiver, giver, lo: 0, hi: 500_000 };
/// let run = |list: &[Transfer]| eliminate_transfers(2, list, &[5; 4], &mut [0; 4]);
/// assert_eq!(run(&[half(1, 2), half(2, 1)]), Outcome::Done);
/// let refused = run(&[half(1, 2), half(2, 1), half(3, 1)]);
/// assert_eq!(refused, Outcome::Refused(Refusal::TransferVat(2)));
/// let refused = run(&[half(2, 1), half(1, 2)]);
/// assert_eq!(refused, Outcome::Refused(Refusal::TransferOrder(1)));
/// ```
#[repr(C)]
#[derive(Clone, Copy, Debug, PartialEq, Eq)]
pub struct Transfer {
    /// The receiving vat.
    pub receiver: i64,
    /// The giving vat.
    pub giver: i64,
    /// The lower share.
    pub lo: i64,
    /// The upper share.
    pub hi: i64,
}

/// As [`eliminate_balance`](crate::eliminate_balance), from a list in place of B.
///
/// ```
/// use kifwaleb::{eliminate_transfers, Outcome, Transfer};
/// let half = |receiver, giver, lo| Transfer { receiver, giver, lo, hi: 500_000 };
/// let shares = [half(1, 2, 0), half(2, 1, 500_000)];
/// let deliveries = [3_000_000, 3_000_000, 0, 0];
/// let mut bounds = [0; 4];
/// let outcome = eliminate_transfers(2, &shares, &deliveries, &mut bounds);
/// assert_eq!(outcome, Outcome::Done);
/// assert_eq!(bounds, [3_000_000, 4_000_000, 1_500_000, 2_000_000]);
/// ```
pub fn eliminate_transfers(
    n: usize,
    transfers: &[Transfer],
    b: &[i64],
    bounds: &mut [i64],
) -> Outcome {
    lend!(kifwaleb_eliminate_transfers, n, transfers, b, bounds).into()
}

/// As [`sweep`](crate::sweep), from a list in place of B.
///
/// ```
/// use kifwaleb::{sweep_transfers, Outcome, Transfer};
/// let half = |receiver, giver, lo| Transfer { receiver, giver, lo, hi: 500_000 };
/// let shares = [half(1, 2, 0), half(2, 1, 500_000)];
/// let deliveries = [3_000_000, 3_000_000, 0, 0];
/// let mut bounds = [0, 10_000_000, 0, 10_000_000];
/// let swept = sweep_transfers(2, &shares, &deliveries, &mut bounds, 3);
/// assert_eq!((swept.outcome, swept.count), (Outcome::Spent, 3));
/// assert_eq!(bounds, [3_000_000, 4_250_000, 1_500_000, 2_125_000]);
/// ```
pub fn sweep_transfers(
    n: usize,
    transfers: &[Transfer],
    b: &[i64],
    bounds: &mut [i64],
    allowed: usize,
) -> Swept {
    lend!(kifwaleb_sweep_transfers, n, transfers, b, bounds, allowed).into()
}

/// As [`symmetric_sweep`](crate::symmetric_sweep), from a list in place of B.
///
/// ```
/// use kifwaleb::{symmetric_sweep_transfers, Outcome, Transfer};
/// let half = |receiver, giver, lo| Transfer { receiver, giver, lo, hi: 500_000 };
/// let shares = [half(1, 2, 0), half(2, 1, 500_000)];
/// let deliveries = [3_000_000, 3_000_000, 0, 0];
/// let mut bounds = [0, 10_000_000, 0, 10_000_000];
/// let swept = symmetric_sweep_transfers(2, &shares, &deliveries, &mut bounds, 3);
/// assert_eq!((swept.outcome, swept.count), (Outcome::Spent, 3));
/// assert_eq!(bounds, [3_000_000, 4_062_500, 1_500_000, 2_125_000]);
/// ```
pub fn symmetric_sweep_transfers(
    n: usize,
    transfers: &[Transfer],
    b: &[i64],
    bounds: &mut [i64],
    allowed: usize,
) -> Swept {
    lend!(
        kifwaleb_symmetric_sweep_transfers,
        n,
        transfers,
        b,
        bounds,
        allowed
    )
    .into()
}
