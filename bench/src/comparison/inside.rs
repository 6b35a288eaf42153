//! Holding a side's boxes against wider ones, in which they must lie: those of before
//! document 02's A4, when every product of a row was rounded, and those of the ordinary
//! sweep call against the symmetric one of A5.

use super::goals::NARROWER;
use super::lent::difference;
use super::sweeps::end_of;
use super::systems::trace_of;
use super::{Tally, Trial};
use crate::case::{Answer, Case};
use crate::generator::balance_of;
use crate::reference::{Call, Pass, Phase, Rounding, Stop, System};
use crate::reference::{DONE, EMPTY, RESULT_OUT_OF_RANGE, SPENT};
use crate::side::Side;
use crate::sweep_list::{SweepCall, SweepList};

/// Of each call the first sweeps are compared one by one, up to this one.
const FIRST_SWEEPS: usize = 5;

/// Sweep calls on the lent box or, after an elimination, each calculation's on the
/// box that its own elimination wrote.
#[derive(Clone, Debug, PartialEq, Eq)]
pub struct Inside {
    pub against: Against,
    pub elimination: Option<Call>,
    /// Whatever its calls are, `against` tells the pass.
    pub list: SweepList,
}

/// What the side's answers are held against; always the reference's.
#[derive(Clone, Copy, Debug, PartialEq, Eq)]
pub enum Against {
    /// The same call with each product rounded.
    BeforeA4,
    /// The ordinary sweeps, as many as passes there and back.
    Ordinary,
}

/// What one call answered as it is held against, and what the side answers.
struct Answers {
    against: Against,
    former: Answer,
    new: Answer,
    /// A 6 of the former came in back-substitution. Nothing before it has changed.
    late: bool,
}

impl Trial for Inside {
    /// Until the side says 7: of what comes after it document 02 says nothing.
    fn compare(&self, side: &impl Side, tally: &mut Tally) -> Result<(), String> {
        let lent = &self.list.lent;
        let mut boxes = [lent.clone(), lent.clone()];
        let [by_elimination, mut narrower, after_elimination] = NARROWER;
        if let Some(call) = self.elimination {
            let answers = eliminated(call, lent, side);
            self.note(&answers, by_elimination, tally)?;
            if answers.numbers() != [DONE, DONE] {
                return Ok(());
            }
            boxes = answers.written_over(&balance(call, lent));
            narrower = after_elimination;
        }
        for SweepCall { allowed, .. } in self.list.calls.iter().copied() {
            let mut left = boxes.clone();
            for allowed in (1..allowed.min(FIRST_SWEEPS + 1)).chain([allowed]) {
                let answers = swept(self.against, &boxes, side, allowed);
                self.note(&answers, narrower, tally)?;
                if answers.new.outcome.number == EMPTY {
                    return Ok(());
                }
                left = answers.written_over(&boxes[0]);
            }
            boxes = left;
        }
        Ok(())
    }
}

impl Inside {
    /// Counts what the answers reached, unless they do not agree.
    fn note(
        &self,
        answers: &Answers,
        narrower: &'static str,
        tally: &mut Tally,
    ) -> Result<(), String> {
        let Answers { former, new, .. } = answers;
        let Some(goal) = answers.goal(self.elimination) else {
            let Inside {
                against,
                elimination,
                list,
            } = self;
            let allowed: Vec<_> = list.calls.iter().map(|call| call.allowed).collect();
            let calls = format!("{elimination:?} and sweeps {allowed:?}");
            let head = format!("a call of {calls}, held against {}", against.name());
            return Err(difference(&head, &list.lent, former, new));
        };
        tally.count(new.outcome.number);
        tally.reach(goal, 0);
        let written = |number: &u64| [DONE, SPENT].contains(number);
        if answers.numbers().iter().all(written) && former.bounds != new.bounds {
            tally.reach(narrower, self.list.lent.n);
        }
        Ok(())
    }
}

fn eliminated(call: Call, lent: &Case, side: &impl Side) -> Answers {
    let trace = trace_of(Rounding::Singly, call, lent);
    let phases = [Phase::Numerator, Phase::Quotient];
    Answers {
        against: Against::BeforeA4,
        former: lent.answer(|_, slices| trace.finish(slices.bounds)),
        new: lent.answer(|n, slices| side.eliminate(call, n, slices)),
        late: matches!(trace.end, Err(Stop::OutOfRange { phase, .. }) if phases.contains(&phase)),
    }
}

/// The balance of an accepted system.
fn balance(call: Call, lent: &Case) -> Case {
    let system = System::read(lent.n, &lent.matrix, &lent.right_side, lent.bounds.len());
    let system = system.expect("an accepted system passes every test");
    match call {
        Call::Eliminate => Case::new(&balance_of(&system)),
        Call::EliminateBalance => Case::new(&system),
    }
}

fn swept(against: Against, [former, new]: &[Case; 2], side: &impl Side, allowed: usize) -> Answers {
    let (rounding, pass) = match against {
        Against::BeforeA4 => (Rounding::Singly, Pass::There),
        Against::Ordinary => (Rounding::Once, Pass::ThereAndBack),
    };
    let ordinary = SweepCall {
        pass: Pass::There,
        allowed,
    };
    let end = end_of(rounding, ordinary, former);
    Answers {
        against,
        former: former.answer(|_, slices| end.finish(slices.bounds)),
        new: new.answer(|n, slices| side.sweep(pass, n, slices, allowed)),
        late: false,
    }
}

impl Against {
    fn name(self) -> &'static str {
        match self {
            Against::BeforeA4 => "that of before A4",
            Against::Ordinary => "the ordinary sweeps",
        }
    }
}

impl Answers {
    fn numbers(&self) -> [u64; 2] {
        [self.former.outcome.number, self.new.outcome.number]
    }

    fn written_over(&self, balance: &Case) -> [Case; 2] {
        [&self.former, &self.new].map(|answer| Case {
            bounds: answer.bounds.inside().to_vec(),
            ..balance.clone()
        })
    }

    /// No lower end has fallen and no upper end has risen.
    fn lie_inside(&self) -> bool {
        let [former, new] = [&self.former, &self.new].map(|answer| answer.bounds.inside());
        let mut ends = former.iter().zip(new).enumerate();
        ends.all(|(place, (former, new))| match place % 2 {
            0 => former <= new,
            _ => new <= former,
        })
    }

    /// What one kind of sweeps has settled to, the other keeps. So both settle to the
    /// same box, the symmetric one never later, and neither then says 7.
    fn are_in_time(&self) -> bool {
        let sooner = self.new.outcome.count <= self.former.outcome.count;
        match self.numbers() {
            [DONE, EMPTY | SPENT] => false,
            [DONE, DONE] => sooner && self.former.bounds == self.new.bounds,
            [EMPTY, EMPTY] => sooner,
            _ => true,
        }
    }

    /// What the answers have reached; nothing if document 02 does not let them differ so.
    /// A 7 can be new for a caller's own box, but that of an elimination holds a solution.
    fn goal(&self, elimination: Option<Call>) -> Option<&'static str> {
        let [former, new] = [self.former.outcome, self.new.outcome];
        let lower_row = new.number == RESULT_OUT_OF_RANGE && new.place < former.place;
        match self.numbers() {
            [DONE | SPENT | EMPTY, EMPTY] if elimination.is_some() => None,
            _ if self.against == Against::Ordinary && !self.are_in_time() => None,
            [DONE | SPENT, EMPTY] => Some("7 new"),
            [EMPTY, EMPTY] => Some("7 as before"),
            [RESULT_OUT_OF_RANGE, DONE] if self.late => Some("6 gone"),
            _ if !self.lie_inside() => None,
            [RESULT_OUT_OF_RANGE, _] if self.late && lower_row => Some("6 moved to a lower row"),
            [DONE, SPENT] => Some("spent, settled before"),
            [SPENT, DONE] => Some("settled, spent before"),
            [DONE, DONE] if new.count < former.count => Some("settled sooner"),
            [DONE, DONE] if new.count > former.count => Some("settled later"),
            _ => (former == new).then_some("as before, but for the box"),
        }
    }
}
