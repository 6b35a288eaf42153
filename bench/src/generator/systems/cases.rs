//! Random cases for one call.

use super::balance::balance_of;
use super::sizes::size;
use super::spoiling::spoil;
use super::steering::steer;
use super::{boxes, matrices};
use crate::case::Case;
use crate::generator::Random;
use crate::reference::{Call, Interval, System, LIMIT, MOST_EQUATIONS, SCALE};

/// Mostly few equations, as many as can be often enough.
const SIZES: [u64; 8] = [10, 22, 18, 12, 16, 10, 7, 5];

struct Cases {
    random: Random,
    call: Call,
    most: usize,
}

/// An endless row of cases for one call, always the same for the same seed.
pub fn random_cases(call: Call, seed: u64) -> impl Iterator<Item = Case> {
    random_cases_up_to(MOST_EQUATIONS, call, seed)
}

/// The same with at most so many equations, which takes far less time.
pub fn random_cases_up_to(most: usize, call: Call, seed: u64) -> impl Iterator<Item = Case> {
    Cases {
        random: Random::new(seed),
        call,
        most,
    }
}

impl Iterator for Cases {
    type Item = Case;

    fn next(&mut self) -> Option<Case> {
        let system = self.system();
        let mut case = Case::new(&system);
        if self.random.once_in(8) {
            spoil(&mut self.random, &mut case, 2);
        }
        case.bounds = boxes::random_content(&mut self.random, case.bounds.len());
        Some(case)
    }
}

impl Cases {
    fn system(&mut self) -> System {
        let n = size(&mut self.random, SIZES, self.most);
        let mut system = matrices::any(&mut self.random, n);
        for _ in 0..self.random.pick(&[0, 0, 1, 1, 1, 1, 1, 2]) {
            steer(&mut self.random, &mut system);
        }
        if self.call == Call::Eliminate {
            return system;
        }
        let mut balance = balance_of(&system);
        if self.random.once_in(12) {
            for _ in 0..self.random.between(1, 2) {
                self.lower_a_share(&mut balance);
            }
        }
        balance
    }

    /// A diagonal share so low that 1 less it comes to the limit or past it.
    fn lower_a_share(&mut self, balance: &mut System) {
        let i = self.random.between(1, balance.size() as i64) as usize;
        let at_limit = SCALE as i64 - LIMIT;
        let past = self.random.pick(&[0, 1, 2, 999_999, SCALE as i64]);
        let upper = self.random.pick(&[at_limit - past, at_limit, 0]);
        balance.set_a(i, i, Interval::new(at_limit - past, upper));
    }
}
