//! All systems of one or two equations over a few intervals, and full systems
//! of awkward numbers in which nearly every result is rounded.

use crate::case::Case;
use crate::reference::{Interval, System, LIMIT};

const ONE: i64 = 1_000_000;

/// Ends for one equation; 2,000 over 1 unit is 2000, 2,001 is past it.
#[rustfmt::skip]
const ENDS: [i64; 14] = [
    -LIMIT - 1, -LIMIT, -ONE, -2_000, -1, 0, 1, 3, 2_000, 2_001, ONE, 1_600_000, LIMIT, LIMIT + 1,
];

/// Entries for two equations.
#[rustfmt::skip]
const ENTRIES: [Interval; 8] = [
    Interval::point(0), Interval::point(ONE), Interval::point(-3 * ONE), Interval::point(1),
    Interval::point(LIMIT), Interval::new(0, ONE), Interval::new(-700_001, 300_001),
    Interval::new(333_333, 500_000),
];

/// Ends out of sequence and out of the range are among them.
pub fn one_equation() -> impl Iterator<Item = Case> {
    let count = ENDS.len();
    (0..count.pow(4)).map(move |code| {
        let end = |place: u32| ENDS[code / count.pow(place) % count];
        Case {
            n: 1,
            matrix: vec![end(0), end(1)],
            right_side: vec![end(2), end(3)],
            bounds: vec![0; 2],
        }
    })
}

pub fn two_equations() -> impl Iterator<Item = System> {
    let count = ENTRIES.len();
    (0..count.pow(6)).map(move |code| {
        let entry = |place: u32| ENTRIES[code / count.pow(place) % count];
        let matrix = (0..4).map(entry).collect();
        System::new(2, matrix, vec![entry(4), entry(5)])
    })
}

/// Full systems with a heavy diagonal, of points and of wider intervals.
pub fn awkward_numbers() -> impl Iterator<Item = System> {
    let every = (1..=8).flat_map(|n| (0..60).map(move |variant| (n, variant)));
    every.map(|(n, variant)| awkward(n, variant))
}

/// Scattered over six digits, with both signs.
fn scattered(i: usize, j: usize, variant: usize) -> i64 {
    let mixed = i * 7_919 + j * 104_729 + variant * 1_299_709;
    (mixed % 900_001) as i64 - 300_000
}

fn awkward(n: usize, variant: usize) -> System {
    let width = [0, 1, 12_345][variant % 3];
    let interval = |value: i64| Interval::new(value, value + width);
    let heavy = |i: usize, j: usize| {
        if i == j {
            n as i64 * 777_777 + 300_007
        } else {
            0
        }
    };
    let mut system = System::noughts(n);
    for i in 1..=n {
        for j in 1..=n {
            system.set_a(i, j, interval(heavy(i, j) + scattered(i, j, variant)));
        }
        system.set_f(i, interval(scattered(i, n + 1, variant) * 7));
    }
    system
}
