//! Comparing lists of operations on half rows.

use super::goals::{stopped, LOADED, MOST_PASSES};
use super::{Tally, Trial};
use crate::case::{Answer, Case};
use crate::guarded::Guarded;
use crate::reference::{laid_flat, HalfCall, Loaded, Outcome, Pass, Stop};
use crate::reference::{DONE, EMPTY, FAULTY_ENDS, FAULTY_LENGTH, FAULTY_SIZE, NOT_DUE, NO_VAT};
use crate::reference::{HALF_BOX, HALF_LENGTH, LIMIT};
use crate::side::{Reference, Side};
use crate::sweep_list::Solution;

/// A state and two numbers past it: no longer slice is lent.
pub const MOST_LENT: usize = HALF_LENGTH + 2;

/// Operations one after the other on one state, in which nothing is loaded at first.
#[derive(Clone, Debug, PartialEq, Eq)]
pub struct HalfList {
    /// What the loads are lent, in turn and then from the first again.
    pub loads: Vec<Case>,
    /// Each with the length of the state's slice.
    pub calls: Vec<(HalfCall, usize)>,
    /// A solution of the only balance that is loaded, if one is known.
    pub solution: Option<Solution>,
}

/// One operation, and what came of it by the reference.
struct Made<'a> {
    call: HalfCall,
    length: usize,
    /// The number of vats that was lent.
    n: usize,
    before: Option<Loaded>,
    outcome: Outcome,
    /// The box after it.
    bounds: &'a [i64],
}

impl Trial for HalfList {
    fn compare(&self, side: &impl Side, tally: &mut Tally) -> Result<(), String> {
        let mut states = [(); 2].map(|_| Guarded::new(&[0; MOST_LENT]));
        let (mut loads, nothing) = (self.loads.iter().cycle(), Case::default());
        let mut passes = None;
        for (index, (call, length)) in self.calls.iter().copied().enumerate() {
            let lent = match call {
                HalfCall::Load => loads.next().expect("a list has something to load"),
                _ => &nothing,
            };
            let before = Loaded::of(&states[0].inside()[..length]);
            let expected = called(&Reference, call, length, lent, &mut states[0]);
            let given = called(side, call, length, lent, &mut states[1]);
            let vats = states[0].inside()[0] as usize;
            let [bounds, others] = [0, 1].map(|k| &states[k].inside()[HALF_BOX..][..2 * vats]);
            let [outcome, other] = [&expected.0, &given.0].map(|answer| answer.outcome);
            let made = Made {
                call,
                length,
                n: lent.n,
                before,
                outcome,
                bounds,
            };
            made.reach(tally);
            let same = expected == given && bounds == others;
            let held = same.then_some(()).ok_or("difference");
            let held = held.and_then(|()| made.keep(self.solution.as_ref(), tally));
            let held = held.and_then(|()| hold(&mut passes, &made, lent, side, tally));
            held.map_err(|fault| {
                let ends = format!("{outcome}, {bounds:?}\n  archive:   {other}, {others:?}");
                let name = call.name();
                format!("{fault} in {name}, call {index} from 0\n  reference: {ends}\n  {self:?}")
            })?;
        }
        Ok(())
    }
}

/// Also whether what must stay did: the whole state after a refusal, else what lies beside.
fn called(
    side: &impl Side,
    call: HalfCall,
    length: usize,
    lent: &Case,
    state: &mut Guarded<i64>,
) -> (Answer, bool) {
    let before = state.clone();
    let slice = &mut state.lent()[..length];
    let answer = lent.answer(|n, slices| side.half_rows(call, slice, n, slices));
    let beside = state.is_intact() && state.inside()[HALF_LENGTH..] == [0; 2];
    let refused = answer.outcome.number != DONE;
    (answer, if refused { *state == before } else { beside })
}

impl Made<'_> {
    /// A solution in the box, and in what was weighed, is still there.
    fn keep(&self, solution: Option<&Solution>, tally: &mut Tally) -> Result<(), &'static str> {
        let (Some(solution), Some(loaded)) = (solution, &self.before) else {
            return Ok(());
        };
        let mut begun = loaded.bounds.clone();
        let mut held = self.call != HalfCall::Load && solution.lies_in(&laid_flat(&begun));
        if let HalfCall::Narrow(vat, weighed) = self.call {
            let own = begun.get_mut(vat.wrapping_sub(1));
            own.into_iter().for_each(|own| *own = weighed);
            held &= solution.lies_in(&laid_flat(&begun));
        }
        if !held {
            return Ok(());
        }
        tally.reach_by(self.call.name(), "a known solution is kept", 0);
        let kept = self.outcome.number != EMPTY && solution.lies_in(self.bounds);
        kept.then_some(()).ok_or("a solution is lost")
    }

    /// Counts what the operation reached by itself.
    fn reach(&self, tally: &mut Tally) {
        let Outcome { number, place, .. } = self.outcome;
        let (vats, place) = (self.bounds.len() / 2, place as usize);
        let due = match &self.before {
            None => 0,
            Some(loaded) => 1 + usize::from(loaded.due == HalfCall::Down),
        };
        let (goal, place) = match (number, self.call) {
            (NOT_DUE, _) if self.length != HALF_LENGTH => ("19 for the length", 0),
            (NOT_DUE, _) if due == 0 => ("19 with nothing loaded", 0),
            (NOT_DUE, _) => ("19 out of turn", 0),
            (EMPTY, _) => ("7 at vat", place),
            (NO_VAT, HalfCall::Narrow(vat, _)) => {
                ("20 for 0, n + 1, more", vat.saturating_sub(vats).min(2))
            }
            (FAULTY_ENDS, HalfCall::Narrow(_, ends)) if ends.lo > ends.hi => ("3 by sequence", 0),
            (FAULTY_ENDS, HalfCall::Narrow(_, ends)) => {
                ("3 by lower, upper end", usize::from(ends.hi > LIMIT))
            }
            (_, HalfCall::Narrow(vat, _)) if due == 1 => ("0 with up due at vat", vat),
            (_, HalfCall::Narrow(vat, _)) => ("0 with down due at vat", vat),
            (DONE, _) => ("0 for n", vats),
            (FAULTY_SIZE, _) => ("1", 0),
            (FAULTY_LENGTH, _) => ("2 at place", place),
            _ => stopped(self.n, Stop::Ends { position: place }),
        };
        tally.count(number);
        tally.reach_by(self.call.name(), goal, place);
        if self.call == HalfCall::Load {
            tally.reach_by("half_load", LOADED[usize::from(number == DONE)], due);
        }
    }
}

/// A load and the passes there and back after it, as long as no vat is narrowed.
type Passes<'a> = Option<(&'a Case, usize)>;

/// They leave what the symmetric sweep call leaves.
fn hold<'a>(
    passes: &mut Passes<'a>,
    made: &Made,
    lent: &'a Case,
    side: &impl Side,
    tally: &mut Tally,
) -> Result<(), &'static str> {
    match (made.call, made.outcome.number, &mut *passes) {
        (HalfCall::Load, DONE, _) => *passes = Some((lent, 0)),
        (HalfCall::Narrow(..), DONE, _) => *passes = None,
        (HalfCall::Down, DONE, Some((lent, whole))) => {
            *whole += 1;
            let pass = Pass::ThereAndBack;
            let swept = lent.answer(|n, slices| side.sweep(pass, n, slices, *whole));
            tally.reach_by("half_down", "0 after passes alone", MOST_PASSES.min(*whole));
            if swept.bounds.inside() != made.bounds {
                return Err("other than the symmetric call");
            }
        }
        _ => (),
    }
    Ok(())
}
