//! Bounds on one farm's milk through a loop of vats.
//!
//! Safe calls of the proved archive that `tools/archive capi` makes: slices in,
//! an enum out. Every input is answered, and a refusal changes nothing that was
//! lent.
//!
//! Numbers are counts of units of one millionth: of a whole for shares, of a
//! tonne (so one gram) for weights. An interval is two of them, lower end then
//! upper end, both from [`LOWEST`] to [`HIGHEST`]; that is 'the range'. With n
//! vats a matrix is 2·n·n numbers, row by row, and a right side or a box 2·n
//! numbers. Where most shares are 0, a list of [`Transfer`]s can stand in place
//! of the matrix.
//!
//! The interface is not frozen, and this package must come from the same
//! version as the archive: nothing tells if it does not.
//!
//! # Half of V1 goes on into V2, at most half of V2 returns, V1 gets 3 tonnes
//!
//! ```
//! use kifwaleb::{eliminate_balance, sweep, Outcome};
//!
//! let shares = [0, 0, 0, 500_000, 500_000, 500_000, 0, 0];
//! let deliveries = [3_000_000, 3_000_000, 0, 0];
//! let mut bounds = [0; 4];
//! let first = eliminate_balance(2, &shares, &deliveries, &mut bounds);
//! assert_eq!(first, Outcome::Done);
//! let swept = sweep(2, &shares, &deliveries, &mut bounds, 100);
//! assert_eq!((swept.outcome, swept.count), (Outcome::Done, 1));
//! assert_eq!(bounds, [3_000_000, 4_000_000, 1_500_000, 2_000_000]);
//! ```

#![deny(missing_docs)]

mod boxes;
mod half_rows;
mod outcome;
pub mod raw;
mod steps;
mod systems;
mod texts;
mod transfers;

pub use boxes::narrower;
pub use half_rows::HalfRows;
pub use outcome::{Outcome, Refusal};
pub use steps::{difference, product, quotient, sum, Interval, Step};
pub use systems::{eliminate, eliminate_balance, start_box, sweep, symmetric_sweep, Swept};
pub use texts::{report, Written};
pub use transfers::{eliminate_transfers, sweep_transfers, symmetric_sweep_transfers, Transfer};

/// One whole, or one tonne, in units.
///
/// ```
/// use kifwaleb::{quotient, Interval, Step, SCALE};
/// let third = quotient(Interval::point(SCALE), Interval::point(3 * SCALE));
/// assert_eq!(third, Step::Value(Interval { lo: 333_333, hi: 333_334 }));
/// ```
pub const SCALE: i64 = 1_000_000;

/// The lower end of the range, in units.
///
/// ```
/// use kifwaleb::{difference, Interval, Step, LOWEST};
/// let lowest = Interval::point(LOWEST);
/// assert_eq!(difference(lowest, Interval::point(1)), Step::OutOfRange);
/// ```
pub const LOWEST: i64 = -2_000_000_000;

/// The upper end of the range, in units.
///
/// ```
/// use kifwaleb::{sum, Interval, Step, HIGHEST};
/// let highest = Interval::point(HIGHEST);
/// assert_eq!(sum(highest, Interval::point(0)), Step::Value(highest));
/// ```
pub const HIGHEST: i64 = 2_000_000_000;

/// The most vats of one call.
///
/// ```
/// use kifwaleb::{eliminate, Outcome, Refusal, MOST_VATS};
/// let refused = eliminate(MOST_VATS + 1, &[], &[], &mut []);
/// assert_eq!(refused, Outcome::Refused(Refusal::Size));
/// ```
pub const MOST_VATS: usize = 32;

/// The most sweeps, or passes there and back, that may be allowed to one call.
///
/// ```
/// use kifwaleb::{sweep, Outcome, MOST_SWEEPS};
/// let swept = sweep(1, &[0, 0], &[5, 5], &mut [0, 9], MOST_SWEEPS);
/// assert_eq!((swept.outcome, swept.count), (Outcome::Done, 2));
/// ```
pub const MOST_SWEEPS: usize = 10_000;

/// The most transfers in one list.
///
/// ```
/// use kifwaleb::{eliminate_transfers, Outcome, Refusal, Transfer, MOST_TRANSFERS};
/// let nought = Transfer { receiver: 1, giver: 1, lo: 0, hi: 0 };
/// let list = [nought; MOST_TRANSFERS + 1];
/// let refused = eliminate_transfers(1, &list, &[5, 5], &mut [0; 2]);
/// assert_eq!(refused, Outcome::Refused(Refusal::Length(1)));
/// ```
pub const MOST_TRANSFERS: usize = 1_024;

/// The bytes of a lent sheet: exactly so many.
///
/// ```
/// let mut sheet = [0; kifwaleb::SHEET_LENGTH];
/// let written = kifwaleb::report(b"V1\n0:0\n5:5\n", &mut sheet);
/// assert_eq!(&sheet[..written.count], b"V1\n5:5\nsettled 1\n");
/// ```
pub const SHEET_LENGTH: usize = 2_048;
