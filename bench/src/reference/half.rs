//! The half rows of document 02, A6, without any: a state holds the balance, the half pass
//! that is due and the box, and every row is summed afresh.

use super::interval::Interval;
use super::numbers::{EMPTY, FAULTY_ENDS, NOT_DUE, NO_VAT};
use super::outcome::Outcome;
use super::rows::Rounding;
use super::sweep::{half_pass, intersection, read};
use super::system::{intervals, laid_flat, System};

/// The numbers of a state. Here these are n, 1 if down is due, box, right side and matrix,
/// and the rest is not used. If n is 0, nothing is loaded.
pub const HALF_LENGTH: usize = 2_434;

/// Where the box begins.
pub const HALF_BOX: usize = 2;

/// An operation on a state.
#[derive(Clone, Copy, Debug, PartialEq, Eq)]
pub enum HalfCall {
    /// Of what is lent with it.
    Load,
    Up,
    Down,
    /// This vat, by a weighed interval.
    Narrow(usize, Interval),
}

impl HalfCall {
    pub fn name(self) -> &'static str {
        match self {
            HalfCall::Load => "half_load",
            HalfCall::Up => "half_up",
            HalfCall::Down => "half_down",
            HalfCall::Narrow(..) => "half_narrow",
        }
    }
}

/// What a state holds.
pub struct Loaded {
    pub balance: System,
    pub bounds: Vec<Interval>,
    /// Up or down.
    pub due: HalfCall,
}

/// Only a load reads n and the slices: matrix, right side and start box.
pub fn half_rows(call: HalfCall, state: &mut [i64], n: usize, lent: [&[i64]; 3]) -> Outcome {
    let beginning = match (call, Loaded::of(state)) {
        (HalfCall::Load, _) if state.len() == HALF_LENGTH => load(n, lent),
        (HalfCall::Narrow(vat, weighed), Some(loaded)) => loaded.narrowed(vat, weighed),
        (half, Some(loaded)) if half == loaded.due => loaded.passed(),
        _ => Err(Outcome::new(NOT_DUE, 0)),
    };
    match beginning {
        Ok(numbers) => state[..numbers.len()].copy_from_slice(&numbers),
        Err(refusal) => return refusal,
    }
    Outcome::DONE
}

/// What the state then begins with, as below.
fn load(n: usize, lent: [&[i64]; 3]) -> Result<Vec<i64>, Outcome> {
    // One sweep is always allowed, so that test 4 of a sweep call is left out.
    read(n, lent, 1).map_err(|end| end.outcome())?;
    let [matrix, right_side, start] = lent;
    Ok([&[n as i64, 0], start, right_side, matrix].concat())
}

impl Loaded {
    /// Nothing if the state has another length, or nothing is loaded.
    pub fn of(state: &[i64]) -> Option<Loaded> {
        if state.len() != HALF_LENGTH || state[0] == 0 {
            return None;
        }
        let n = state[0] as usize;
        let (bounds, rest) = state[HALF_BOX..].split_at(2 * n);
        let (right_side, rest) = rest.split_at(2 * n);
        let matrix = intervals(&rest[..2 * n * n]);
        Some(Loaded {
            balance: System::new(n, matrix, intervals(right_side)),
            bounds: intervals(bounds),
            due: [HalfCall::Up, HalfCall::Down][state[1] as usize],
        })
    }

    fn beginning(self) -> Vec<i64> {
        let down = i64::from(self.due == HalfCall::Down);
        let head = [self.balance.size() as i64, down];
        [&head[..], &laid_flat(&self.bounds)].concat()
    }

    fn passed(mut self) -> Result<Vec<i64>, Outcome> {
        let (x, vats) = (&mut self.bounds, 1..=self.balance.size());
        let end = if self.due == HalfCall::Up {
            self.due = HalfCall::Down;
            half_pass(Rounding::Once, &self.balance, x, vats)
        } else {
            self.due = HalfCall::Up;
            half_pass(Rounding::Once, &self.balance, x, vats.rev())
        };
        end.map_err(|vat| Outcome::new(EMPTY, vat as u64))?;
        Ok(self.beginning())
    }

    fn narrowed(mut self, vat: usize, weighed: Interval) -> Result<Vec<i64>, Outcome> {
        let own = self.bounds.get_mut(vat.wrapping_sub(1));
        let own = own.ok_or(Outcome::new(NO_VAT, 0))?;
        if !weighed.is_valid() {
            return Err(Outcome::new(FAULTY_ENDS, 0));
        }
        let met = intersection(weighed.into(), *own);
        *own = met.ok_or(Outcome::new(EMPTY, vat as u64))?;
        Ok(self.beginning())
    }
}

#[cfg(test)]
mod tests {
    use super::HalfCall::{Down, Load, Up};
    use super::*;

    const ONE: i64 = 1_000_000;

    fn narrow(vat: usize, lo: i64, hi: i64) -> HalfCall {
        HalfCall::Narrow(vat, Interval::new(lo, hi))
    }

    /// Calls on one state, which is empty at first, each with its number and place and the
    /// box after it.
    fn assert_made<const N: usize>(lent: [&[i64]; 3], calls: &[(HalfCall, [u64; 2], [i64; N])]) {
        let mut state = [0; HALF_LENGTH];
        for (call, ending, bounds) in calls {
            let before = state;
            let outcome = half_rows(*call, &mut state, N / 2, lent);
            assert_eq!([outcome.number, outcome.place], *ending, "{call:?}");
            assert_eq!(&state[HALF_BOX..][..N], bounds, "{call:?}");
            assert!(outcome == Outcome::DONE || state == before);
        }
    }

    /// Up V1 gets 300 + 1,000/2 at most and V2 half of it, down V1 300 + 400/2. With V2
    /// weighed as 190, V1 gets 395. Of 390, V2 would get 195.
    #[test]
    fn half_passes_and_weighings_worked_out_by_hand() {
        let shares = [0, 0, 0, ONE / 2, ONE / 2, ONE / 2, 0, 0];
        let calls = [
            (Load, [0, 0], [0, 1_000, 0, 1_000]),
            (Up, [0, 0], [300, 800, 150, 400]),
            (Down, [0, 0], [300, 500, 150, 400]),
            (narrow(2, 0, 190), [0, 0], [300, 500, 150, 190]),
            (Up, [0, 0], [300, 395, 150, 190]),
            (narrow(1, 390, 395), [0, 0], [390, 395, 150, 190]),
            (Down, [7, 2], [390, 395, 150, 190]),
        ];
        assert_made([&shares, &[300, 300, 0, 0], &[0, 1_000, 0, 1_000]], &calls);
    }

    /// x = x + 1 from 0 to 1: the lower end rises by a unit up, and past the upper one down.
    #[test]
    fn refusals_come_in_sequence_and_change_nothing() {
        let calls = [
            (Up, [19, 0], [0, 0]),
            (narrow(0, 1, 0), [19, 0], [0, 0]),
            (Load, [0, 0], [0, 1]),
            (Down, [19, 0], [0, 1]),
            (Up, [0, 0], [1, 1]),
            (Up, [19, 0], [1, 1]),
            (Down, [7, 1], [1, 1]),
            (Down, [7, 1], [1, 1]),
            (narrow(2, 1, 0), [20, 0], [1, 1]),
            (narrow(1, 2, 1), [3, 0], [1, 1]),
            (narrow(1, 2, 3), [7, 1], [1, 1]),
            (narrow(1, 0, 1), [0, 0], [1, 1]),
            (Load, [0, 0], [0, 1]),
            (Up, [0, 0], [1, 1]),
        ];
        assert_made([&[ONE, ONE], &[1, 1], &[0, 1]], &calls);
    }
}
