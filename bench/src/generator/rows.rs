//! Balances in which one vat's row is a sum chosen beforehand: of products with
//! fractions, whole or a part beside it, and of products far beyond 64 bits that take
//! each other away. A part is a millionth of a unit, in which products are counted.

use super::Random;
use crate::reference::{Interval, System, LIMIT, MOST_EQUATIONS, SCALE};

const ONE: i64 = 1_000_000;

/// A share, and the weight that it is of.
pub type Factors = (i64, i64);

/// The vat's row has these shares, of the other vats from the first on. Each of those
/// keeps its delivery as its weight.
fn balance(n: usize, vat: usize, row: &[Factors]) -> System {
    let mut balance = System::noughts(n);
    let others = (1..=n).filter(|j| *j != vat);
    for (j, (share, weight)) in others.zip(row) {
        balance.set_a(vat, j, Interval::point(*share));
        balance.set_f(j, Interval::point(*weight));
    }
    balance
}

/// Few factors whose products come to so many parts.
pub fn coming_to(parts: i128) -> Vec<Factors> {
    let (sign, mut rest) = (parts.signum() as i64, parts.abs());
    let mut row = Vec::new();
    while rest > 0 {
        let share = rest.min(i128::from(LIMIT));
        let weight = (rest / share).min(i128::from(LIMIT));
        row.push((sign * share as i64, weight as i64));
        rest -= share * weight;
    }
    row
}

/// At every place a part takes the sum across 0 or a multiple of 2^64, upward or
/// downward, as far as there is room to take it away again; for the first vat and for
/// the last.
pub fn carries() -> impl Iterator<Item = System> {
    let n = MOST_EQUATIONS;
    let every = (-3..=3).flat_map(|multiple| [1, -1].map(|part| (multiple << 64, part)));
    every.flat_map(move |(across, part): (i128, i64)| {
        let before = across - i128::from(part.max(0));
        let [there, back] = [before, -before].map(coming_to);
        let rows = (0..n - 1 - 2 * there.len()).map(move |noughts| {
            let noughts = vec![(0, 0); noughts];
            [&there[..], &noughts, &[(part, 1)], &back].concat()
        });
        rows.flat_map(move |row| [1, n].map(|vat| balance(n, vat, &row)))
    })
}

/// A sum about a multiple of 2^63 that is taken away again, if there is room, small
/// products, and mostly one that takes the sum to whole units or a part beside them.
pub fn any(random: &mut Random, n: usize) -> System {
    let multiple = random.between(0, 6);
    let parts = (i128::from(random.signed(multiple)) << 63) + random.pick(&[-1, 0, 1]);
    let far = [parts, -parts].map(coming_to);
    let [mut row, back] = match 2 * far[0].len() < n {
        true => far,
        false => Default::default(),
    };
    let room = n - 1 - back.len();
    while row.len() < room && !random.once_in(8) {
        let [share, weight] = [ONE, 10].map(|limit| random.magnitude(limit));
        row.push((random.signed(share), weight));
    }
    if row.len() < room {
        let all = row.iter().chain(&back);
        let products = all.map(|(share, weight)| i128::from(*share) * i128::from(*weight));
        let rest = (-products.sum::<i128>()).rem_euclid(SCALE) as i64;
        row.push((rest + random.pick(&[-1, 0, 1]), 1));
    }
    row.extend(back);
    if random.once_in(2) {
        (1..row.len()).for_each(|place| row.swap(place, random.below(place as u64 + 1) as usize));
    }
    let vat = random.between(1, n as i64) as usize;
    balance(n, random.pick(&[1, vat]), &row)
}

#[cfg(test)]
mod tests {
    use super::*;
    use std::cmp::Ordering::{Greater, Less};
    use std::collections::BTreeSet;

    /// Upward not in the first column, which has no sum before it, nor in the last.
    #[test]
    fn a_part_carries_in_every_column() {
        let n = MOST_EQUATIONS;
        let mut crossed = BTreeSet::new();
        for (balance, vat) in carries().flat_map(|b| [(b.clone(), 1), (b, n)]) {
            let product = |j| i128::from(balance.a(vat, j).lo) * i128::from(balance.f(j).lo);
            let sum = |columns| (1..=columns).map(product).sum::<i128>();
            let parts = (1..=n).filter(|j| product(*j).abs() == 1);
            crossed.extend(parts.map(|j| (j, (sum(j) >> 64).cmp(&(sum(j - 1) >> 64)))));
            assert!(sum(n).abs() <= 1);
        }
        let columns = |way| crossed.iter().filter(move |(_, other)| *other == way);
        assert_eq!(columns(Less).count(), n);
        assert_eq!(columns(Greater).count(), n - 2);
    }
}
