//! Random lists of sweep calls.

use super::{allowances, balances, lent, slow, solved, starts};
use crate::generator::systems::sizes::size;
use crate::generator::systems::spoiling::spoil;
use crate::generator::Random;
use crate::reference::{Pass, MOST_EQUATIONS};
use crate::sweep_list::SweepList;

/// Mostly few vats, as many as can be often enough.
const SIZES: [u64; 8] = [15, 24, 20, 12, 15, 7, 5, 2];

struct Lists {
    random: Random,
    most: usize,
}

/// An endless row of lists, always the same for the same seed.
pub fn random_lists(seed: u64) -> impl Iterator<Item = SweepList> {
    random_lists_up_to(MOST_EQUATIONS, seed)
}

/// The same with at most so many vats, which takes far less time.
pub fn random_lists_up_to(most: usize, seed: u64) -> impl Iterator<Item = SweepList> {
    let random = Random::new(seed);
    Lists { random, most }
}

impl Iterator for Lists {
    type Item = SweepList;

    fn next(&mut self) -> Option<SweepList> {
        let n = size(&mut self.random, SIZES, self.most);
        let mut list = match self.random.below(16) {
            0..=3 => solved::list(&mut self.random, n),
            4 => self.slow(n),
            _ => self.free(n),
        };
        if self.random.once_in(10) {
            spoil(&mut self.random, &mut list.lent, 3);
            list.solution = None;
        }
        Some(list)
    }
}

impl Lists {
    fn free(&mut self, n: usize) -> SweepList {
        let balance = balances::any(&mut self.random, n);
        let start = starts::any(&mut self.random, &balance);
        SweepList {
            lent: lent(&balance, &start),
            calls: allowances::for_list(&mut self.random, &balance),
            solution: None,
        }
    }

    /// One call that ends just before, at or after the sweep that decides. Many vats
    /// and the last one are taken more often than elsewhere.
    fn slow(&mut self, n: usize) -> SweepList {
        let [pass, other] = [(); 2].map(|_| self.random.pick(&Pass::ALL));
        let any = self.random.between(1, self.most as i64) as usize;
        let n = self.random.pick(&[n, any]);
        let vat = self.random.between(1, n as i64) as usize;
        let vat = self.random.pick(&[vat, n]);
        let reach = (20_000 / (n * n)).min(10_000) as i64;
        let changes = self.random.magnitude(reach);
        // The last of these sweeps may change something in its first half alone.
        let fewer = self.random.between(0, pass.turns() - 1);
        let units = (changes * pass.turns() - fewer).max(0);
        let case = if self.random.once_in(2) {
            slow::settling(n, vat, units)
        } else {
            slow::emptying(n, vat, units)
        };
        let past = self.random.between(0, 2);
        let allowed = (changes + past).min(10_000) as usize;
        let calls = [allowed, self.random.pick(&[0, 1, 2, 10_001]), 1];
        SweepList::new(case, &calls).with(&[pass, other])
    }
}
