//! Lists of calls that fail a test before the calculation.

use super::allowances::REFUSED;
use crate::case::Case;
use crate::generator::systems::faults::{faulty_lengths, faulty_sizes};
use crate::generator::systems::faults::{set_interval, FAULTY_ENDS};
use crate::reference::MOST_EQUATIONS;
use crate::samples::identity;
use crate::sweep_list::SweepList;

/// Good numbers, and a start box that is changed by the first sweep.
fn good(n: usize) -> Case {
    let mut case = Case::new(&identity(n));
    case.matrix.fill(0);
    case.bounds = [0, 50_000_000].repeat(n);
    case
}

pub fn sizes() -> impl Iterator<Item = SweepList> {
    let allowed = [1, 0, 10_001, 10_000];
    faulty_sizes().map(move |case| SweepList::new(case, &allowed))
}

pub fn lengths() -> impl Iterator<Item = SweepList> {
    let allowed = [1, 0, 10_001, 2];
    faulty_lengths().map(move |case| SweepList::new(case, &allowed))
}

/// Every refused number over good numbers, and over faulty ends.
pub fn allowances() -> impl Iterator<Item = SweepList> {
    [1, 2, 7, 32].into_iter().flat_map(|n| {
        let count = n * n + 2 * n;
        let spoiled = [0, n * n, count - 1].map(|position| {
            let mut case = good(n);
            set_interval(&mut case, position, FAULTY_ENDS[0]);
            case
        });
        let cases = spoiled.into_iter().chain([good(n)]);
        cases.flat_map(|case| {
            REFUSED.map(|refused| SweepList::new(case.clone(), &[refused, 1, refused, 2]))
        })
    })
}

/// One faulty interval at every position.
pub fn ends() -> impl Iterator<Item = SweepList> {
    (1..=MOST_EQUATIONS).flat_map(|n| {
        let kinds = if n <= 4 { FAULTY_ENDS.len() } else { 1 };
        (0..n * n + 2 * n).flat_map(move |position| {
            (0..kinds).map(move |kind| {
                let mut case = good(n);
                set_interval(&mut case, position, FAULTY_ENDS[(position + kind) % 12]);
                SweepList::new(case, &[1, 10_000])
            })
        })
    })
}

/// Two of them: every two positions of small sizes, and each position of the
/// greatest size with the last one.
pub fn two_ends() -> impl Iterator<Item = SweepList> {
    let small = (1..=3_usize).flat_map(|n| {
        let count = n * n + 2 * n;
        (0..count * count).map(move |code| (n, code / count, code % count))
    });
    let n = MOST_EQUATIONS;
    let count = n * n + 2 * n;
    let great = (0..count).map(move |position| (n, position, count - 1));
    small.chain(great).map(|(n, first, second)| {
        let mut case = good(n);
        set_interval(&mut case, first, FAULTY_ENDS[first % 12]);
        set_interval(&mut case, second, FAULTY_ENDS[(second + 5) % 12]);
        SweepList::new(case, &[3])
    })
}

#[cfg(test)]
mod tests {
    use super::*;
    use crate::reference::{Outcome, Pass};
    use crate::side::{Reference, Side};
    use crate::sweep_list::SweepCall;

    fn outcome(list: &SweepList) -> Outcome {
        let SweepCall { pass, allowed } = list.calls[0];
        let lent = &list.lent;
        let answer = lent.answer(|n, slices| Reference.sweep(pass, n, slices, allowed));
        answer.outcome
    }

    #[test]
    fn every_position_is_named() {
        let mut lists = ends();
        for n in 1..=MOST_EQUATIONS {
            let kinds = if n <= 4 { 12 } else { 1 };
            for position in 0..n * n + 2 * n {
                for list in lists.by_ref().take(kinds) {
                    assert_eq!(outcome(&list), Outcome::new(3, position as u64));
                }
            }
        }
        assert_eq!(lists.count(), 0);
    }

    #[test]
    fn refused_numbers_precede_ends_and_follow_lengths() {
        assert!(allowances().all(|list| outcome(&list) == Outcome::new(4, 0)));
        for list in lengths() {
            let lent = &list.lent;
            let none = lent.answer(|n, slices| Reference.sweep(Pass::There, n, slices, 0));
            let right = outcome(&list).number != 2;
            assert_eq!(none.outcome.number, if right { 4 } else { 2 });
        }
    }
}
