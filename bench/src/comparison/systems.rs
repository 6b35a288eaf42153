//! Comparing eliminations.

use super::goals::{after_swaps, stopped};
use super::lent::difference;
use super::{Tally, Trial};
use crate::case::Case;
use crate::reference::{trace, Call, Rounding, Trace};
use crate::side::Side;

/// An elimination with what it is lent.
#[derive(Clone, Debug, PartialEq, Eq)]
pub struct Elimination {
    pub call: Call,
    pub lent: Case,
}

pub(super) fn trace_of(rounding: Rounding, call: Call, lent: &Case) -> Trace {
    let slices = [&lent.matrix[..], &lent.right_side];
    trace(rounding, call, lent.n, slices, lent.bounds.len())
}

impl Trial for Elimination {
    fn compare(&self, side: &impl Side, tally: &mut Tally) -> Result<(), String> {
        let Elimination { call, lent } = self;
        let n = lent.n;
        let trace = trace_of(Rounding::Once, *call, lent);
        let expected = lent.answer(|_, slices| trace.finish(slices.bounds));
        let given = lent.answer(|n, slices| side.eliminate(*call, n, slices));
        if expected != given {
            return Err(difference(call.name(), lent, &expected, &given));
        }
        tally.count(expected.outcome.number);
        let (goal, place) = match trace.end {
            Ok(_) => ("0 for n", n),
            Err(stop) => stopped(n, stop),
        };
        tally.reach(goal, place);
        for step in &trace.swaps {
            tally.reach("a swap at step", *step);
        }
        match trace.swaps.len() {
            0 => (),
            swaps => tally.reach(after_swaps(expected.outcome.number), swaps.min(3)),
        }
        Ok(())
    }
}
