//! Lists of sweep calls.

mod allowances;
pub(super) mod balances;
mod edges;
mod faults;
mod lists;
mod slow;
mod small;
pub(super) mod solved;
pub(super) mod starts;

pub use edges::edge_lists;
pub use lists::{random_lists, random_lists_up_to};
pub use slow::settling;

use crate::case::Case;
use crate::reference::{laid_flat, Interval, System};

/// A balance lent with a start box.
fn lent(balance: &System, start: &[Interval]) -> Case {
    Case {
        bounds: laid_flat(start),
        ..Case::new(balance)
    }
}
