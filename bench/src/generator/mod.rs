//! The cases to try: all cases of edge values, and random cases that are
//! steered to where a wrong answer would show.

mod choices;
mod half;
mod inside;
mod pairs;
mod random;
mod rows;
mod searches;
mod starts;
mod sweeps;
mod systems;
mod texts;
mod transfers;

pub use choices::boxes_up_to;
pub use half::half_lists_up_to;
pub use inside::{insides, symmetric_insides};
pub use pairs::{edge_pairs, random_pairs};
pub use random::Random;
pub use searches::searches;
pub use starts::starts_up_to;
pub use sweeps::{edge_lists, random_lists, random_lists_up_to, settling};
pub use systems::balance::balance_of;
pub use systems::{edge_cases, random_cases, random_cases_up_to};
pub use texts::{edge_texts, random_texts, random_texts_up_to, FAULTY_SPELLINGS};
pub use texts::{long_named_text, short_named_text};
pub use transfers::transfers_up_to;
