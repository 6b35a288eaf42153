//! Comparing answers with the reference's, and counting what was reached.

mod choices;
pub mod goals;
mod half;
mod inside;
mod lent;
mod searches;
mod starts;
mod steps;
mod sweeps;
mod systems;
mod tally;
#[cfg(test)]
mod tests;
mod texts;
mod transfers;

pub use choices::Boxes;
pub use half::{HalfList, MOST_LENT};
pub use inside::{Against, Inside};
pub use searches::{Memory, Search, LONGEST};
pub use starts::StartBox;
pub use steps::Pair;
pub use systems::Elimination;
pub use tally::{Goal, Tally};
pub use texts::shown;
pub use transfers::{Transfers, SHORT};

use crate::side::Side;

/// Something to try on a side.
pub trait Trial {
    /// Counts what the reference's answer reached. The text tells how the side's
    /// answer differs.
    fn compare(&self, side: &impl Side, tally: &mut Tally) -> Result<(), String>;
}

/// Runs through `trials` until the side differs from the reference, or so many
/// calls were made.
pub fn compare<T: Trial>(
    goals: Vec<Goal>,
    trials: impl Iterator<Item = T>,
    calls: u64,
    side: &impl Side,
) -> Result<Tally, String> {
    let mut tally = Tally::new(goals);
    for trial in trials {
        if tally.calls() >= calls {
            break;
        }
        trial.compare(side, &mut tally)?;
    }
    Ok(tally)
}
