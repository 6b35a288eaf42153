//! All lists over one or two vats and a few intervals, and full balances of
//! awkward numbers in which nearly every product is rounded.

use super::lent;
use crate::reference::{calculate, Call, Interval, System, LIMIT};
use crate::sweep_list::SweepList;

const ONE: i64 = 1_000_000;
const WIDEST: Interval = Interval::new(-LIMIT, LIMIT);

#[rustfmt::skip]
const INTERVALS: [Interval; 16] = [
    Interval::point(0), Interval::point(1), Interval::point(-1), Interval::point(ONE),
    Interval::point(-ONE), Interval::point(999_999), Interval::point(-500_000),
    Interval::point(LIMIT), Interval::point(-LIMIT), Interval::new(0, 1), Interval::new(-1, 1),
    Interval::new(499_999, 500_001), Interval::new(-333_333, 666_667),
    Interval::new(-700_001, -300_001), Interval::new(0, LIMIT), WIDEST,
];

#[rustfmt::skip]
const SHARES: [Interval; 5] = [
    Interval::point(0), Interval::point(500_000), Interval::new(-333_333, 333_334),
    Interval::new(0, 700_001), Interval::point(ONE),
];

const DELIVERIES: [Interval; 3] = [
    Interval::point(0),
    Interval::new(-1, 3_000_001),
    Interval::point(7),
];

const STARTS: [Interval; 4] = [
    WIDEST,
    Interval::new(0, 10_000_001),
    Interval::point(3),
    Interval::new(-5, 5),
];

pub fn one_vat() -> impl Iterator<Item = SweepList> {
    let count = INTERVALS.len();
    (0..count.pow(3)).map(move |code| {
        let interval = |place: u32| INTERVALS[code / count.pow(place) % count];
        let balance = System::new(1, vec![interval(0)], vec![interval(1)]);
        let case = lent(&balance, &[interval(2)]);
        SweepList::new(case, &[1, 0, 2, 10_001, 40])
    })
}

pub fn two_vats() -> impl Iterator<Item = SweepList> {
    let shares = (0..625).map(|code| [1, 5, 25, 125].map(|power| SHARES[code / power % 5]));
    shares.flat_map(|shares| {
        (0..144).map(move |code| {
            let deliveries = [1, 3].map(|power| DELIVERIES[code / power % 3]);
            let start = [9, 36].map(|power| STARTS[code / power % 4]);
            let balance = System::new(2, shares.to_vec(), deliveries.to_vec());
            SweepList::new(lent(&balance, &start), &[1, 2, 12])
        })
    })
}

/// Scattered up to `cap`, with both signs.
fn scattered(i: usize, j: usize, variant: usize, cap: i64) -> i64 {
    let mixed = (i * 7_919 + j * 104_729 + variant * 1_299_709) as i64;
    mixed * 31 % (2 * cap + 1) - cap
}

fn awkward(n: usize, variant: usize) -> System {
    let width = [0, 1, 345][variant % 3];
    let interval = |value: i64| Interval::new(value, value + width);
    let mut balance = System::noughts(n);
    for i in 1..=n {
        for j in 1..=n {
            let cap = 800_000 / n as i64;
            balance.set_a(i, j, interval(scattered(i, j, variant, cap)));
        }
        balance.set_f(i, interval(scattered(i, n + 1, variant, 5_000_000)));
    }
    balance
}

/// Full balances from the widest box, from the one that elimination writes
/// and from a point.
pub fn awkward_numbers() -> impl Iterator<Item = SweepList> {
    let every = (1..=12).flat_map(|n| (0..30).map(move |variant| (n, variant)));
    every.flat_map(|(n, variant)| {
        let balance = awkward(n, variant);
        let eliminated = calculate(Call::EliminateBalance, balance.clone()).end;
        let starts = [
            vec![WIDEST; n],
            eliminated.unwrap_or(vec![WIDEST; n]),
            vec![Interval::point(12_345); n],
        ];
        starts.map(|start| SweepList::new(lent(&balance, &start), &[1, 1, 2, 100]))
    })
}
