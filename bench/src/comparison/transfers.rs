//! Comparing calls from a list of transfers, also with the side's own calls from the square.

use super::goals::{FAR, ORDERS, RECORDS, VATS, WAYS};
use super::lent::difference;
use super::{Tally, Trial};
use crate::case::{Answer, Case};
use crate::reference::{intervals, Call, Interval, ListCall, Outcome, Rounding, SCALE};
use crate::reference::{DONE, EMPTY, FAULTY_ALLOWANCE, FAULTY_ENDS, FAULTY_LENGTH, FAULTY_SIZE};
use crate::reference::{MOST_TRANSFERS, TRANSFER, TRANSFER_ORDER, TRANSFER_VAT};
use crate::reference::{RESULT_OUT_OF_RANGE, SPENT};
use crate::side::{Reference, Side};
use crate::sweep_list::Solution;

/// The sums of a list are in one word if no end of a share is farther from 0: 32 products of
/// such shares fit it together.
pub const SHORT: i64 = 1 << 27;

/// A call with its list, which is lent in place of the matrix.
#[derive(Clone, Debug, PartialEq, Eq)]
pub struct Transfers {
    pub call: ListCall,
    pub lent: Case,
    /// A solution of the balance, if one is known.
    pub solution: Option<Solution>,
}

impl Trial for Transfers {
    fn compare(&self, side: &impl Side, tally: &mut Tally) -> Result<(), String> {
        let Transfers { call, lent, .. } = self;
        let expected = lent.answer(|n, slices| Reference.transfers(*call, n, slices));
        let given = lent.answer(|n, slices| side.transfers(*call, n, slices));
        let differing = |other: &Answer, what: &str| {
            let head = format!("{call:?} from a list{what}");
            Err(difference(&head, lent, other, &given))
        };
        if expected != given {
            return differing(&expected, "");
        }
        if !self.keeps_solution(&given) {
            return differing(&expected, ": a solution is lost");
        }
        self.reach(tally, expected.outcome);
        let tests = [
            FAULTY_SIZE,
            FAULTY_LENGTH,
            FAULTY_ALLOWANCE,
            TRANSFER_VAT,
            TRANSFER_ORDER,
        ];
        if !tests.contains(&given.outcome.number) {
            let held = self.from_square(side);
            let due = (self.in_square(given.outcome), &given.bounds);
            if (held.outcome, &held.bounds) != due {
                return differing(&held, ", held against the call from the square");
            }
        }
        Ok(())
    }
}

impl Transfers {
    /// Each transfer, as its four numbers.
    fn list(&self) -> impl Iterator<Item = &[i64]> {
        self.lent.matrix.chunks_exact(TRANSFER)
    }

    /// The ends of all shares.
    fn shares(&self) -> impl Iterator<Item = &i64> {
        self.list().flat_map(|transfer| &transfer[2..])
    }

    pub fn takes_two_words(&self) -> bool {
        self.shares().any(|end| end.unsigned_abs() > SHORT as u64)
    }

    /// Where a transfer stands in the square.
    fn position(&self, transfer: &[i64]) -> usize {
        let [receiver, giver] = [transfer[0], transfer[1]].map(|vat| vat as usize);
        (receiver - 1) * self.lent.n + giver - 1
    }

    /// The side's own call, from the square that the list stands for.
    fn from_square(&self, side: &impl Side) -> Answer {
        let mut square = self.lent.clone();
        square.matrix = vec![0; 2 * square.n * square.n];
        for transfer in self.list() {
            let ends = &mut square.matrix[2 * self.position(transfer)..][..2];
            ends.copy_from_slice(&transfer[2..]);
        }
        square.answer(|n, slices| match self.call {
            ListCall::Eliminate => side.eliminate(Call::EliminateBalance, n, slices),
            ListCall::Sweep(pass, allowed) => side.sweep(pass, n, slices, allowed),
        })
    }

    /// Only a 3 has its place elsewhere in the square.
    fn in_square(&self, mut outcome: Outcome) -> Outcome {
        if outcome.number == FAULTY_ENDS {
            let (n, place) = (self.lent.n, outcome.place as usize);
            let listed = self
                .list()
                .nth(place)
                .map(|transfer| self.position(transfer));
            outcome.place = listed.unwrap_or(n * n + place - self.list().count()) as u64;
        }
        outcome
    }

    /// An elimination's box holds every solution, that of sweeps each one of the start box.
    fn keeps_solution(&self, given: &Answer) -> bool {
        let Some(solution) = &self.solution else {
            return true;
        };
        let begun = self.call == ListCall::Eliminate || solution.lies_in(&self.lent.bounds);
        match given.outcome.number {
            EMPTY => !begun,
            DONE | SPENT => !begun || solution.lies_in(given.bounds.inside()),
            _ => true,
        }
    }

    /// How the library sweeps a list that has passed the tests; of one with sums in two words
    /// also what it has in row 1, which is summed first and so with the start box.
    fn way(&self) -> Vec<(&'static str, usize)> {
        let (n, bounds) = (self.lent.n, &self.lent.bounds);
        let two_words = self.takes_two_words();
        let above = self.shares().chain(bounds).all(|end| 0 <= *end);
        let mut reached = vec![(WAYS[2 * usize::from(two_words) + usize::from(above)], n)];
        if two_words {
            let weights = intervals(bounds);
            let first = self.list().take_while(|transfer| transfer[0] == 1);
            let row = first.map(|t| (Interval::new(t[2], t[3]), weights[t[1] as usize - 1]));
            let row: Vec<_> = row.collect();
            reached.push((RECORDS, row.len()));
            let sum = Rounding::Once.sum(row.into_iter());
            let parts = SCALE * sum.lo.abs().max(sum.hi.abs());
            let far = FAR.iter().filter(|(_, bits, _)| parts >> bits > 0);
            reached.extend(far.map(|(name, ..)| (*name, n)));
        }
        reached
    }

    /// 0 at the first transfer that can be refused so, 1 between, 2 at the last, 3 at 1,023.
    fn spot(&self, first: usize, place: usize) -> usize {
        match place {
            1_023 => 3,
            place if place == first => 0,
            place => 1 + usize::from(place + 1 == self.list().count()),
        }
    }

    /// Counts what a call reached.
    fn reach(&self, tally: &mut Tally, Outcome { number, place, .. }: Outcome) {
        let (n, place, count) = (self.lent.n, place as usize, self.list().count());
        let vats = |place| &self.lent.matrix[TRANSFER * place..][..2];
        let (goal, at) = match number {
            DONE => ("0 for n", n),
            SPENT => ("9 for n", n),
            FAULTY_SIZE => ("1", 0),
            FAULTY_LENGTH => ("2 at place", place),
            FAULTY_ALLOWANCE => ("4", 0),
            FAULTY_ENDS if place < count => ("3 in the list", 0),
            FAULTY_ENDS if place < count + n => ("3 in the right side", 0),
            FAULTY_ENDS => ("3 in the box", 0),
            EMPTY => ("7 at vat", place),
            RESULT_OUT_OF_RANGE => ("6 in row", place),
            TRANSFER_VAT => (VATS, self.spot(0, place)),
            TRANSFER_ORDER => (ORDERS, self.spot(1, place)),
            _ => ("5 at pivot", place),
        };
        let further = match number {
            DONE if count == 0 => Some("0 with no transfer"),
            DONE if count == MOST_TRANSFERS => Some("0 with 1,024 transfers"),
            DONE | SPENT if self.solution.is_some() => Some("0 or 9 with a known solution"),
            FAULTY_LENGTH if place == 1 && count == 1_025 => Some("2 for 1,025 transfers"),
            TRANSFER_VAT if vats(place).iter().any(|vat| *vat < 1) => Some("11 below 1"),
            TRANSFER_ORDER if vats(place) == vats(place - 1) => Some("12 with the same vats"),
            _ => None,
        };
        let swept = self.call != ListCall::Eliminate && [DONE, SPENT].contains(&number);
        let way = if swept { self.way() } else { Vec::new() };
        tally.count(number);
        for (goal, at) in [(goal, at)]
            .into_iter()
            .chain(further.map(|goal| (goal, 0)))
            .chain(way)
        {
            tally.reach_by(self.call.name(), goal, at);
        }
    }
}
