//! Comparing the choice between two boxes.

use super::{Tally, Trial};
use crate::guarded::Guarded;
use crate::reference::{width, MOST_EQUATIONS};
use crate::side::{Reference, Side};
use std::ptr;

/// Two boxes to choose from. Their lengths need not fit the size.
#[derive(Clone, Debug, PartialEq, Eq)]
pub struct Boxes {
    pub n: usize,
    pub first: Vec<i64>,
    pub second: Vec<i64>,
}

impl Trial for Boxes {
    /// The part handed back must be the very one. The first is also given twice.
    fn compare(&self, side: &impl Side, tally: &mut Tally) -> Result<(), String> {
        let lent = [&self.first, &self.second].map(|numbers| Guarded::new(numbers));
        let left = lent.clone();
        let [first, second] = [left[0].inside(), left[1].inside()];
        for second in [second, first] {
            let expected = Reference.narrower(self.n, first, second);
            let given = side.narrower(self.n, first, second);
            if !ptr::eq(expected, given) || std::hint::black_box(&left) != &lent {
                return Err(format!(
                    "difference in narrower, n = {}\n  first: {first:?}\n  second: {second:?}\n  \
                     reference: {expected:?}\n  archive:   {given:?}, or not itself, or altered",
                    self.n
                ));
            }
        }
        // The call has no number: every answer is counted as 0.
        tally.count(0);
        self.reach(tally);
        Ok(())
    }
}

impl Boxes {
    fn reach(&self, tally: &mut Tally) {
        let both = [&self.first, &self.second];
        let widths = both.map(|numbers| width(self.n, numbers).ok_or(numbers.len()));
        match widths {
            [Ok(first), Ok(second)] => self.reach_widths(tally, second - first),
            [Err(length), Ok(_)] => tally.reach("the first alone fails test", self.test(length)),
            [Ok(_), Err(length)] => tally.reach("the second alone fails test", self.test(length)),
            [Err(length), Err(_)] => tally.reach("both fail, the first test", self.test(length)),
        }
    }

    /// The test 1, 2 or 3 that a box of this length fails.
    fn test(&self, length: usize) -> usize {
        match self.n {
            1..=MOST_EQUATIONS => 2 + usize::from(length == 2 * self.n),
            _ => 1,
        }
    }

    fn reach_widths(&self, tally: &mut Tally, wider: i128) {
        let (goal, closely) = match wider {
            0 => ("first by a tie for n", self.first != self.second),
            1.. => ("first for n", wider == 1),
            _ => ("second for n", wider == -1),
        };
        tally.reach(goal, self.n);
        if closely {
            let place = (wider + 1) as usize;
            tally.reach("unequal: second by a unit, tie, first by a unit", place);
        }
    }
}
