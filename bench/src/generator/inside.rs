//! Calls to hold against the calculation of before document 02's A4, and symmetric
//! sweep calls to hold against ordinary ones.

use super::{random_cases, random_lists, Random};
use crate::comparison::{Against, Inside};
use crate::reference::Call;
use crate::sweep_list::SweepList;
use std::iter;

/// Without end, always the same for the same seed.
pub fn insides(seed: u64) -> impl Iterator<Item = Inside> {
    let mut random = Random::new(seed);
    let mut lists = random_lists(seed);
    let mut cases = Call::ALL.map(|call| random_cases(call, seed));
    iter::from_fn(move || {
        let call = random.pick(&Call::ALL);
        let (elimination, list) = match random.once_in(2) {
            true => (None, lists.next()?),
            false => {
                let allowed = random.pick(&[[1, 1], [3, 1], [20, 5]]);
                let lent = cases[call as usize].next()?;
                (Some(call), SweepList::new(lent, &allowed))
            }
        };
        let against = Against::BeforeA4;
        Some(Inside {
            against,
            elimination,
            list,
        })
    })
}

/// Without end, always the same for the same seed. Many start boxes are those that
/// elimination writes.
pub fn symmetric_insides(seed: u64) -> impl Iterator<Item = Inside> {
    random_lists(seed).map(|list| Inside {
        against: Against::Ordinary,
        elimination: None,
        list,
    })
}
