//! Pairs of operands for a single step.

mod edges;
mod steered;

pub use edges::edge_pairs;
pub use steered::random_pairs;
