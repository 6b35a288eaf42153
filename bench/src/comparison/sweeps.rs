//! Comparing lists of sweep calls.

use super::goals::{stopped, ON_WRITTEN};
use super::lent::difference;
use super::{Tally, Trial};
use crate::case::{Answer, Case};
use crate::reference::{sweep_end, Pass, Rounding, SweepEnd, EMPTY, MOST_SWEEPS};
use crate::side::Side;
use crate::sweep_list::{SweepCall, SweepList};

/// What the calls of a list before this one did to the box.
#[derive(Default)]
struct Before {
    /// By the last call that wrote it.
    written: Option<Pass>,
    refused: bool,
}

impl Trial for SweepList {
    fn compare(&self, side: &impl Side, tally: &mut Tally) -> Result<(), String> {
        let mut lent = self.lent.clone();
        let mut before = Before::default();
        let mixed = self.is_mixed();
        for (index, call) in self.calls.iter().copied().enumerate() {
            let SweepCall { pass, allowed } = call;
            let end = end_of(Rounding::Once, call, &lent);
            let expected = lent.answer(|_, slices| end.finish(slices.bounds));
            let given = lent.answer(|n, slices| side.sweep(pass, n, slices, allowed));
            let name = pass.name();
            let head = format!("{name}, {allowed} allowed, call {} of its list", index + 1);
            if expected != given {
                return Err(difference(&head, &lent, &expected, &given));
            }
            let solved = self.holds_solution(&lent.bounds);
            if solved && !self.keeps_solution(&given) {
                let head = format!("{head}: a solution in the start box is lost");
                return Err(difference(&head, &lent, &expected, &given));
            }
            reach(tally, lent.n, call, &end);
            if solved {
                tally.reach_by(name, "0 or 9 with a known solution in the box", 0);
            }
            if mixed {
                tally.reach("a call of a list with both calls", 0);
            }
            before.reach(tally, pass, &end);
            lent.bounds = expected.bounds.inside().to_vec();
        }
        Ok(())
    }
}

pub(super) fn end_of(rounding: Rounding, call: SweepCall, lent: &Case) -> SweepEnd {
    let slices = [&lent.matrix[..], &lent.right_side, &lent.bounds];
    sweep_end(rounding, call.pass, lent.n, slices, call.allowed)
}

impl SweepList {
    /// A solution in the start box must be in the last box as well, and no
    /// intersection may then be empty.
    fn keeps_solution(&self, given: &Answer) -> bool {
        given.outcome.number != EMPTY && self.holds_solution(given.bounds.inside())
    }
}

/// Counts what one call of n vats reached by itself.
fn reach(tally: &mut Tally, n: usize, call: SweepCall, end: &SweepEnd) {
    let SweepCall { pass, allowed } = call;
    let outcome = end.outcome();
    tally.count(outcome.number);
    let mut reach = |goal, place| tally.reach_by(pass.name(), goal, place);
    let (goal, place) = match *end {
        SweepEnd::Refused(stop) => stopped(n, stop),
        SweepEnd::Allowance if allowed == 0 => ("4 for no sweeps", 0),
        SweepEnd::Allowance => ("4 for too many sweeps", 0),
        SweepEnd::Empty { vat, .. } => ("7 at vat", vat),
        SweepEnd::Settled { .. } => ("0 for n", n),
        SweepEnd::Spent { .. } => ("9 for n", n),
    };
    reach(goal, place);
    let count = outcome.count;
    let further = match *end {
        SweepEnd::Settled { .. } if count > 1 => Some("0 with a count above 1"),
        SweepEnd::Spent { .. } if count > 1 => Some("9 with a count above 1"),
        SweepEnd::Empty { .. } if count > 0 => Some("7 with a count above 0"),
        _ => None,
    };
    further.into_iter().for_each(|goal| reach(goal, 0));
    if matches!(end, SweepEnd::Settled { .. }) && count > 1 && count == allowed as u64 {
        reach("0 by the last allowed sweep, above 1", 0);
    }
    if matches!(end, SweepEnd::Empty { .. }) && count > 1 {
        reach("7 with a count above 1", 0);
    }
    if count == MOST_SWEEPS as u64 {
        reach("a count of 10,000", 0);
    }
    if let SweepEnd::Empty {
        vat, back: true, ..
    } = *end
    {
        reach("7 on the way back at vat", vat);
        let above = usize::from(count > 0);
        reach("7 on the way back with a count of 0, above 0", above);
    }
}

impl Before {
    /// Counts what a call reached by its place in the list.
    fn reach(&mut self, tally: &mut Tally, pass: Pass, end: &SweepEnd) {
        let calculated = !matches!(end, SweepEnd::Refused(_) | SweepEnd::Allowance);
        if calculated && self.written.is_some() {
            tally.reach_by(
                pass.name(),
                ON_WRITTEN[usize::from(self.written != Some(pass))],
                0,
            );
        }
        if calculated && self.refused {
            tally.reach_by(pass.name(), "0, 9 or 7 after a refusal in the list", 0);
        }
        match end.bounds() {
            Some(_) => self.written = Some(pass),
            None => self.refused = true,
        }
    }
}
