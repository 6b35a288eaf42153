//! Balances whose sweeps after the elimination end about the hundredth.

use crate::case::Case;
use crate::reference::{Interval, System};

/// What two vats give each other, with the count that settles their box.
pub const SHARES: [(i64, Option<u64>); 6] = [
    (989_468, Some(98)),
    (989_321, Some(99)),
    (989_419, Some(100)),
    (989_944, Some(101)),
    (989_993, Some(102)),
    // The box is far from settled then.
    (999_900, None),
];

/// Two vats that give each other a share; the others keep their delivery. The
/// second pivot is small and rounded, so that the box is too wide at first.
pub fn balance(n: usize, vats: [usize; 2], share: i64) -> Case {
    let mut balance = System::noughts(n);
    (1..=n).for_each(|i| balance.set_f(i, Interval::point(i as i64)));
    let [first, second] = vats;
    for (vat, other) in [(first, second), (second, first)] {
        balance.set_a(vat, other, Interval::point(share));
        balance.set_f(vat, Interval::point(100_000));
    }
    Case::new(&balance)
}

/// For every n that can have two such vats.
pub fn balances() -> impl Iterator<Item = Case> {
    (2..=32).flat_map(|n| {
        let pairs = [[1, 2], [1, n], [n, 1], [n - 1, n]];
        let every = pairs.into_iter().filter(|[first, second]| first != second);
        every.flat_map(move |vats| SHARES.map(|(share, _)| balance(n, vats, share)))
    })
}

#[cfg(test)]
mod tests {
    use super::super::draft::Draft;
    use super::super::names;
    use super::*;
    use crate::reference::{calculate, sheet, sweeps, Call};

    #[test]
    fn counts_are_as_they_were_meant() {
        for (n, vats) in [(2, [1, 2]), (5, [4, 2]), (32, [1, 32])] {
            for (share, count) in SHARES {
                let case = balance(n, vats, share);
                let read = System::read(n, &case.matrix, &case.right_side, 2 * n).unwrap();
                let start = calculate(Call::EliminateBalance, read.clone()).end.unwrap();
                let outcome = sweeps(&read, start, 1_000).outcome();
                let settled = (outcome.number == 0).then_some(outcome.count);
                assert_eq!(settled, count);
                let text = Draft::new(names::listed(0, n), &case).written();
                let last = match count {
                    Some(count) if count <= 100 => format!("\nsettled {count}\n"),
                    _ => "\nspent 100\n".to_string(),
                };
                assert!(sheet(&text).ends_with(last.as_bytes()));
            }
        }
    }
}
