//! The two eliminations, the start box and the two sweep calls.

use crate::raw::{self, KifwalebOutcome};
use crate::Outcome;

/// A sweep call's end, with the count of whole sweeps done, or of whole passes there and
/// back.
///
/// ```
/// use kifwaleb::{sweep, Outcome, Swept};
/// let spent = Swept { outcome: Outcome::Spent, count: 1 };
/// assert_eq!(sweep(1, &[0, 0], &[5, 5], &mut [0, 9], 1), spent);
/// ```
#[derive(Clone, Copy, Debug, PartialEq, Eq)]
pub struct Swept {
    /// How the call ended.
    pub outcome: Outcome,
    /// Whole sweeps, the one that changed nothing included; with
    /// [`Refusal::Empty`](crate::Refusal::Empty) those before, with any other
    /// refusal 0.
    pub count: usize,
}

/// Lends three slices to a function of the archive: n first, then each slice's
/// pointer and length, then whatever else it takes.
macro_rules! lend {
    ($function:ident, $n:expr, $matrix:expr, $right:expr, $bounds:expr $(, $further:expr)?) => {
        // SAFETY: each pointer comes with the length of its slice, no other slice
        // shares memory with the changeable one, and any numbers are accepted.
        unsafe {
            raw::$function(
                $n,
                $matrix.as_ptr(),
                $matrix.len(),
                $right.as_ptr(),
                $right.len(),
                $bounds.as_mut_ptr(),
                $bounds.len(),
                $($further,)?
            )
        }
    };
}
pub(crate) use lend;

/// Writes bounds on each component of the solutions of A·x = f, by elimination: at
/// each step k, the lowest row from k on without 0 in column k is swapped with row k.
/// What `bounds` holds before does not matter.
///
/// ```
/// use kifwaleb::{eliminate, Outcome};
/// let (a, f) = ([1_000_000, 1_600_000], [1_000_000, 2_000_000]);
/// let mut bounds = [0; 2];
/// assert_eq!(eliminate(1, &a, &f, &mut bounds), Outcome::Done);
/// assert_eq!(bounds, [625_000, 2_000_000]);
/// ```
pub fn eliminate(n: usize, a: &[i64], f: &[i64], bounds: &mut [i64]) -> Outcome {
    lend!(kifwaleb_eliminate, n, a, f, bounds).into()
}

/// Writes bounds on each component of the solutions of x = B·x + b, lent as for
/// [`eliminate`]. Row i, column j of B is the share of what passes through vat j
/// that goes on into vat i; b has each vat's delivery from the farm.
///
/// ```
/// use kifwaleb::{eliminate_balance, Outcome};
/// let (share, delivery) = ([100_000, 200_000], [9_000_000, 9_000_000]);
/// let mut bounds = [0; 2];
/// assert_eq!(eliminate_balance(1, &share, &delivery, &mut bounds), Outcome::Done);
/// assert_eq!(bounds, [10_000_000, 11_250_000]);
/// ```
pub fn eliminate_balance(n: usize, b_matrix: &[i64], b: &[i64], bounds: &mut [i64]) -> Outcome {
    lend!(kifwaleb_eliminate_balance, n, b_matrix, b, bounds).into()
}

/// Writes bounds on each component of the solutions of x = B·x + b, lent as for
/// [`eliminate_balance`], but without elimination: wide ones, from which [`sweep`] can
/// start where an elimination is refused. b is widened by the same reach at every end.
///
/// The shares' magnitudes must come to less than one in every row or in every column,
/// else the call is refused with [`Refusal::Sums`](crate::Refusal::Sums).
///
/// ```
/// use kifwaleb::{start_box, Outcome, Refusal};
/// let (share, delivery) = ([100_000, 200_000], [9_000_000, 9_000_000]);
/// let mut bounds = [0; 2];
/// assert_eq!(start_box(1, &share, &delivery, &mut bounds), Outcome::Done);
/// assert_eq!(bounds, [6_750_000, 11_250_000]);
/// let refused = start_box(1, &[0, 1_000_000], &delivery, &mut bounds);
/// assert_eq!(refused, Outcome::Refused(Refusal::Sums));
/// ```
pub fn start_box(n: usize, b_matrix: &[i64], b: &[i64], bounds: &mut [i64]) -> Outcome {
    lend!(kifwaleb_start_box, n, b_matrix, b, bounds).into()
}

/// Tightens bounds on the solutions of x = B·x + b, in place, by at most
/// `allowed` sweeps, 1 to 10,000. For each vat, b and all products of its row are
/// summed exactly, rounded outward once, and intersected with its bounds. Every
/// solution in the start box is in the box written, and no bound gets wider. `Done`
/// means settled; `Spent` writes the bounds too.
///
/// To tighten a box that [`eliminate`] wrote from A and f, lend B = I − A and
/// b = f: for an entry \[lo, hi\] of A, \[1,000,000 − hi, 1,000,000 − lo\] on the
/// diagonal and \[−hi, −lo\] elsewhere.
///
/// ```
/// use kifwaleb::{sweep, Outcome};
/// let shares = [0, 0, 0, 500_000, 500_000, 500_000, 0, 0];
/// let deliveries = [3_000_000, 3_000_000, 0, 0];
/// let mut bounds = [0, 10_000_000, 0, 10_000_000];
/// let swept = sweep(2, &shares, &deliveries, &mut bounds, 3);
/// assert_eq!((swept.outcome, swept.count), (Outcome::Spent, 3));
/// assert_eq!(bounds, [3_000_000, 4_250_000, 1_500_000, 2_125_000]);
/// ```
pub fn sweep(n: usize, b_matrix: &[i64], b: &[i64], bounds: &mut [i64], allowed: usize) -> Swept {
    lend!(kifwaleb_sweep, n, b_matrix, b, bounds, allowed).into()
}

/// As [`sweep`], but there and back: a pass goes from vat 1 to n and then from n to 1,
/// always with the newest bounds, and is allowed and counted as one sweep.
///
/// Unless the call is refused, the box after each pass lies inside the one that [`sweep`]
/// leaves after as many sweeps. It can be refused with
/// [`Refusal::Empty`](crate::Refusal::Empty) where `sweep` is not, since it comes further
/// with as many passes; never the other way round.
///
/// Where both settle they leave the same box, so the choice is one of time. A pass takes
/// as long as two sweeps. It pays where most milk runs against the numbering of the vats:
/// there about half as many passes settle a box. Where most runs along the numbering,
/// `sweep` needs hardly more sweeps than this call needs passes, and so half the time.
///
/// ```
/// use kifwaleb::{symmetric_sweep, Outcome};
/// let shares = [0, 0, 0, 500_000, 500_000, 500_000, 0, 0];
/// let deliveries = [3_000_000, 3_000_000, 0, 0];
/// let mut bounds = [0, 10_000_000, 0, 10_000_000];
/// let swept = symmetric_sweep(2, &shares, &deliveries, &mut bounds, 3);
/// assert_eq!((swept.outcome, swept.count), (Outcome::Spent, 3));
/// assert_eq!(bounds, [3_000_000, 4_062_500, 1_500_000, 2_125_000]);
/// ```
pub fn symmetric_sweep(
    n: usize,
    b_matrix: &[i64],
    b: &[i64],
    bounds: &mut [i64],
    allowed: usize,
) -> Swept {
    lend!(kifwaleb_symmetric_sweep, n, b_matrix, b, bounds, allowed).into()
}

impl From<KifwalebOutcome> for Swept {
    fn from(given: KifwalebOutcome) -> Swept {
        Swept {
            outcome: given.into(),
            count: given.count as usize,
        }
    }
}
