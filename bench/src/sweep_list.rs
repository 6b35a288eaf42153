//! A list of sweep calls on one lent box.

use crate::case::Case;
use crate::reference::{Interval, Pass};

/// One case, swept by several calls one after the other. Each call gets the
/// box as the one before left it.
#[derive(Clone, Debug, PartialEq, Eq)]
pub struct SweepList {
    pub lent: Case,
    pub calls: Vec<SweepCall>,
    /// A solution of the balance, if one is known.
    pub solution: Option<Solution>,
}

/// Which of the two calls, and the number of sweeps allowed in it.
#[derive(Clone, Copy, Debug, PartialEq, Eq)]
pub struct SweepCall {
    pub pass: Pass,
    pub allowed: usize,
}

/// Weights in units, as fractions over one denominator above 0.
#[derive(Clone, Debug, PartialEq, Eq)]
pub struct Solution {
    pub numerators: Vec<i128>,
    pub denominator: i128,
}

impl SweepList {
    /// Ordinary calls.
    pub fn new(lent: Case, allowed: &[usize]) -> SweepList {
        let allowed = allowed.iter().copied();
        let pass = Pass::There;
        SweepList {
            lent,
            calls: allowed.map(|allowed| SweepCall { pass, allowed }).collect(),
            solution: None,
        }
    }

    /// The calls do these passes in turn.
    pub fn with(mut self, passes: &[Pass]) -> SweepList {
        let calls = self.calls.iter_mut();
        for (call, pass) in calls.zip(passes.iter().cycle()) {
            call.pass = *pass;
        }
        self
    }

    /// True if it holds both calls.
    pub fn is_mixed(&self) -> bool {
        let holds = |pass| self.calls.iter().any(|call| call.pass == pass);
        Pass::ALL.into_iter().all(holds)
    }

    /// True if a solution is known and lies in the box.
    pub fn holds_solution(&self, bounds: &[i64]) -> bool {
        let solution = self.solution.as_ref();
        solution.is_some_and(|solution| solution.lies_in(bounds))
    }
}

impl Solution {
    /// The narrowest interval around a vat's weight; nothing if there is no such vat.
    pub fn around(&self, vat: usize) -> Option<Interval> {
        let weight = self.numerators.get(vat.checked_sub(1)?)?;
        let below = |weight: i128| weight.div_euclid(self.denominator) as i64;
        Some(Interval::new(below(*weight), -below(-weight)))
    }

    /// Lower·q ≤ p ≤ upper·q for each weight p/q.
    pub fn lies_in(&self, bounds: &[i64]) -> bool {
        let ends = bounds.chunks_exact(2);
        let mut both = ends.zip(&self.numerators);
        bounds.len() == 2 * self.numerators.len()
            && both.all(|(ends, p)| {
                let [lo, hi] = [ends[0], ends[1]].map(i128::from);
                lo * self.denominator <= *p && *p <= hi * self.denominator
            })
    }
}

#[cfg(test)]
mod tests {
    use super::*;
    use crate::samples::program_input;
    use Pass::{There, ThereAndBack};

    #[test]
    fn calls_do_the_passes_in_turn() {
        let list = SweepList::new(program_input([0; 4]), &[5, 6, 7]);
        assert!(!list.is_mixed());
        let both = list.clone().with(&[ThereAndBack, There]);
        let passes: Vec<_> = both.calls.iter().map(|call| call.pass).collect();
        assert_eq!(passes, [ThereAndBack, There, ThereAndBack]);
        assert!(both.is_mixed());
        assert!(!list.with(&[ThereAndBack]).is_mixed());
    }

    #[test]
    fn a_solution_lies_in_a_box_with_its_ends() {
        let solution = Solution {
            numerators: vec![7, -6],
            denominator: 2,
        };
        assert!(solution.lies_in(&[3, 4, -3, -3]));
        for outside in [
            [4, 4, -3, -3],
            [3, 3, -3, -3],
            [3, 4, -2, 0],
            [3, 4, -9, -4],
        ] {
            assert!(!solution.lies_in(&outside));
        }
        assert!(!solution.lies_in(&[3, 4]));
    }
}
