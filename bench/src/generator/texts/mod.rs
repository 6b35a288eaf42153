//! Texts for the report call and the program.

mod accidents;
mod damage;
mod draft;
mod drawn;
mod edges;
mod limits;
mod names;
mod sheets;
mod slips;
mod slow;
mod spellings;

pub use drawn::{random_texts, random_texts_up_to};
pub use edges::edge_texts;
pub use spellings::FAULTY_ENDS as FAULTY_SPELLINGS;

use crate::case::Case;

/// The text of a balance, its names as long as can be.
pub fn long_named_text(case: &Case) -> Vec<u8> {
    draft::Draft::new(names::listed(2, case.n), case).written()
}

/// The same with the names V1, V2 and so on.
pub fn short_named_text(case: &Case) -> Vec<u8> {
    draft::Draft::new(names::listed(0, case.n), case).written()
}
