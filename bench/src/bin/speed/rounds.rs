//! Rounds of both sides in turns, and what they show.

use crate::tasks::{Side, Task};
use std::time::{Duration, Instant};

/// A round of the slower side lasts about so long.
const ROUND: Duration = Duration::from_millis(2);

pub struct Measured {
    /// The median time of one call, in microseconds.
    pub ours: f64,
    pub theirs: f64,
    /// Quartiles of ours / theirs, each from two neighbouring rounds.
    pub ratio: [f64; 3],
    /// Of the fastest round of either side, which other work on the machine
    /// disturbed least.
    pub fastest: f64,
}

pub fn measure(task: &mut Task, rounds: usize) -> Measured {
    let times = calls_in_a_round(task);
    let pairs: Vec<_> = (0..rounds)
        .map(|_| [Side::Ours, Side::Theirs].map(|side| seconds(task, side, times)))
        .collect();
    let [ours, theirs] = [0, 1].map(|side| sorted(pairs.iter().map(|pair| pair[side])));
    let ratio = sorted(pairs.iter().map(|[ours, theirs]| ours / theirs));
    let median_of_one_call = |seconds: &[f64]| quartiles(seconds)[1] * 1e6 / times as f64;
    Measured {
        ours: median_of_one_call(&ours),
        theirs: median_of_one_call(&theirs),
        ratio: quartiles(&ratio),
        fastest: ours[0] / theirs[0],
    }
}

fn seconds(task: &mut Task, side: Side, times: usize) -> f64 {
    let start = Instant::now();
    task.run(side, times);
    start.elapsed().as_secs_f64()
}

/// Doubled until the slower side takes long enough. This warms both sides up.
fn calls_in_a_round(task: &mut Task) -> usize {
    let mut times = 1;
    loop {
        let sides = [Side::Ours, Side::Theirs];
        let longest = sides.map(|side| seconds(task, side, times));
        if longest[0].max(longest[1]) >= ROUND.as_secs_f64() {
            return times;
        }
        times *= 2;
    }
}

fn sorted(values: impl Iterator<Item = f64>) -> Vec<f64> {
    let mut sorted: Vec<_> = values.collect();
    sorted.sort_by(f64::total_cmp);
    sorted
}

fn quartiles(sorted: &[f64]) -> [f64; 3] {
    [1, 2, 3].map(|quarter| sorted[(sorted.len() - 1) * quarter / 4])
}

#[cfg(test)]
mod tests {
    use super::*;

    #[test]
    fn quartiles_are_those_of_the_sorted_values() {
        let five = sorted([5.0, 1.0, 4.0, 2.0, 3.0].into_iter());
        assert_eq!(quartiles(&five), [2.0, 3.0, 4.0]);
        assert_eq!(quartiles(&[7.0]), [7.0; 3]);
    }
}
