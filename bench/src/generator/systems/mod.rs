//! Systems for the elimination calls.

pub(super) mod balance;
pub(super) mod boxes;
mod cases;
mod edges;
pub(super) mod faults;
pub(super) mod matrices;
pub(super) mod sizes;
mod small;
pub(super) mod spoiling;
mod spots;
mod steering;

pub use cases::{random_cases, random_cases_up_to};
pub use edges::edge_cases;
