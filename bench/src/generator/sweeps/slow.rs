//! Balances in which one end moves by one unit in each sweep and by two in each pass
//! there and back, so that the count of any call is known.

use super::lent;
use crate::case::Case;
use crate::reference::{Interval, System};
use crate::sweep_list::SweepList;

const ONE: i64 = 1_000_000;

/// Without shares, except the vat's own. The start box of the others is the
/// point that they keep.
fn alone(n: usize, vat: usize, share: i64, delivery: i64, upper: i64) -> Case {
    let mut balance = System::noughts(n);
    let mut start: Vec<_> = (1..=n as i64).map(Interval::point).collect();
    (1..=n).for_each(|i| balance.set_f(i, start[i - 1]));
    balance.set_a(vat, vat, Interval::point(share));
    balance.set_f(vat, Interval::point(delivery));
    start[vat - 1] = Interval::new(0, upper);
    lent(&balance, &start)
}

/// The upper end falls by so many units, then the box is settled.
pub fn settling(n: usize, vat: usize, units: i64) -> Case {
    alone(n, vat, 999_999, 0, 999_999 + units)
}

/// The lower end rises by so many units, then the intersection is empty.
pub fn emptying(n: usize, vat: usize, units: i64) -> Case {
    alone(n, vat, ONE, 1, units)
}

/// Counts around every limit, and lists in which the limit comes later.
pub fn lists() -> impl Iterator<Item = SweepList> {
    let few = [0, 1, 2, 3, 9];
    let many = [9_997..=10_001, 19_996..=20_001].into_iter().flatten();
    let one_vat = few.into_iter().chain(many).flat_map(|units| {
        let cases = [settling(1, 1, units), emptying(1, 1, units)];
        cases.into_iter().flat_map(allowances)
    });
    let sizes = (1..=32).flat_map(move |n| {
        let vats = (1..=n).filter(move |vat| n <= 4 || n == 32 || *vat == n);
        vats.flat_map(move |vat| few.map(|units| (n, vat, units)))
    });
    let any_vat = sizes.flat_map(|(n, vat, units)| {
        let short: [&[usize]; 4] = [&[1, 1, 1, 1], &[2, 0, 2], &[3], &[4, 11]];
        let cases = [settling(n, vat, units), emptying(n, vat, units)];
        cases
            .into_iter()
            .flat_map(move |case| short.map(|allowed| SweepList::new(case.clone(), allowed)))
    });
    one_vat.chain(any_vat)
}

fn allowances(case: Case) -> impl Iterator<Item = SweepList> {
    let lists: [&[usize]; 10] = [
        &[1],
        &[2, 2],
        &[3, 10_001, 3],
        &[9_997],
        &[9_998],
        &[9_999],
        &[10_000],
        &[9_999, 1, 1, 1],
        &[10_000, 0, 10_000],
        &[5_000, 5_000, 1, 1],
    ];
    let made = lists.map(|allowed| SweepList::new(case.clone(), allowed));
    made.into_iter()
}

#[cfg(test)]
mod tests {
    use super::*;
    use crate::reference::Pass;
    use crate::side::{Reference, Side};

    fn outcome(pass: Pass, case: &Case, allowed: usize) -> (u64, u64, u64) {
        let answer = case.answer(|n, slices| Reference.sweep(pass, n, slices, allowed));
        let outcome = answer.outcome;
        (outcome.number, outcome.place, outcome.count)
    }

    #[test]
    fn counts_are_as_they_were_meant() {
        for (n, vat) in [(1, 1), (3, 2), (32, 32)] {
            let settled = settling(n, vat, 5);
            let there = |case: &Case, allowed| outcome(Pass::There, case, allowed);
            assert_eq!(there(&settled, 5), (9, 0, 5));
            assert_eq!(there(&settled, 6), (0, 0, 6));
            assert_eq!(there(&settled, 7), (0, 0, 6));
            let empty = emptying(n, vat, 5);
            assert_eq!(there(&empty, 5), (9, 0, 5));
            assert_eq!(there(&empty, 6), (7, vat as u64, 5));
            let back = |case: &Case, allowed| outcome(Pass::ThereAndBack, case, allowed);
            for units in [5, 6] {
                let settled = settling(n, vat, units);
                assert_eq!(back(&settled, 3), (9, 0, 3));
                assert_eq!(back(&settled, 4), (0, 0, 4));
            }
            assert_eq!(back(&empty, 2), (9, 0, 2));
            assert_eq!(back(&empty, 3), (7, vat as u64, 2));
        }
    }
}
