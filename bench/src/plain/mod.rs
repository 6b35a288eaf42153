//! The calls in everyday Rust, for comparing speed: 64-bit numbers, 128 bits for
//! the sum of a row, four products, floor and ceiling, safe slices. Unlike the
//! reference it keeps no account of what it did, only of the outcome.

mod elimination;
mod interval;
mod lent;
mod report;
#[cfg(test)]
mod sameness;
mod start_box;
mod sweep;

pub use elimination::eliminate_balance;
pub use report::report;
pub use start_box::start_box;
pub use sweep::sweep;
