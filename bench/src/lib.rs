//! The outside check: an independent implementation of the documents, the cases
//! to try, and the comparison with the archive.

pub mod archive;
pub mod case;
pub mod case_file;
pub mod comparison;
pub mod generator;
pub mod guarded;
pub mod plain;
pub mod plan;
pub mod reference;
pub mod samples;
pub mod side;
pub mod sweep_list;
pub mod text_case;
