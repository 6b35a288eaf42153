//! Spots: a few entries, set into a system of ones on the diagonal, that bring
//! one result of the elimination to a limit or one unit past it.

use crate::generator::Random;
use crate::reference::{Interval, System, LIMIT};
use crate::samples::identity;

const ONE: i64 = 1_000_000;
const ZERO: Interval = Interval::point(0);

/// Signs of the result, each at the limit and one unit past it.
const SIDES: [(i64, i64); 4] = [(1, 0), (1, 1), (-1, 0), (-1, 1)];

/// Contains 0 in every way, or misses it by a unit.
#[rustfmt::skip]
const PIVOTS: [Interval; 7] = [
    ZERO, Interval::new(0, 1), Interval::new(-1, 0), Interval::new(-1, 1),
    Interval::new(-LIMIT + ONE, LIMIT), Interval::point(1), Interval::point(-1),
];

#[derive(Clone, Debug)]
pub struct Spot {
    settings: Vec<Setting>,
}

#[derive(Clone, Copy, Debug)]
enum Setting {
    A(usize, usize, Interval),
    F(usize, Interval),
}

/// So many units at row i, column j.
fn a(i: usize, j: usize, units: i64) -> Setting {
    Setting::A(i, j, Interval::point(units))
}

fn f(i: usize, units: i64) -> Setting {
    Setting::F(i, Interval::point(units))
}

fn spot(settings: &[Setting]) -> Spot {
    Spot {
        settings: settings.to_vec(),
    }
}

impl Spot {
    pub fn plant(&self, system: &mut System) {
        for setting in &self.settings {
            match *setting {
                Setting::A(i, j, interval) => system.set_a(i, j, interval),
                Setting::F(i, interval) => system.set_f(i, interval),
            }
        }
    }
}

/// Every spot of a small system; in a large one, every row with the nearest
/// and the farthest of the others.
pub fn spots(n: usize) -> Vec<Spot> {
    let mut found = Vec::new();
    for i in 1..=n {
        found.extend(pivots(i));
        found.extend(quotients(i));
        found.extend(formings(i));
        for k in chosen(n, 1, i - 1) {
            found.extend(swaps(k, i));
            found.extend(factors(k, i));
            found.extend(right_sides(k, i));
            for j in chosen(n, k + 1, n) {
                found.extend(entries(k, i, j));
            }
        }
        for j in chosen(n, i + 1, n) {
            found.extend(numerators(i, j));
            for l in chosen(n, j + 1, n) {
                found.extend(cancelling_numerators(i, j, l));
                found.extend(halved_numerators(i, j, l));
            }
        }
    }
    found
}

/// All of `first` to `last` in a small system, otherwise the outermost two.
fn chosen(n: usize, first: usize, last: usize) -> Vec<usize> {
    if n <= 4 || last <= first {
        (first..=last).collect()
    } else {
        vec![first, last]
    }
}

fn pivots(k: usize) -> impl Iterator<Item = Spot> {
    let spot_of = move |pivot: &Interval| spot(&[Setting::A(k, k, *pivot), f(k, 0)]);
    PIVOTS.iter().map(spot_of)
}

/// Row i serves where row k does not; or its factor, named by its new place, leaves
/// the range.
fn swaps(k: usize, i: usize) -> impl Iterator<Item = Spot> {
    let rows = [a(i, k, 100), a(i, i, 0), a(k, i, ONE)];
    let pivots = [0, 1, 200_000, 200_001];
    pivots.into_iter().map(move |hi| {
        let pivot = Setting::A(k, k, Interval::new(0, hi));
        spot(&[&[pivot, f(k, 0), f(i, 0)], &rows[..]].concat())
    })
}

/// The factor meets only noughts; its test must not depend on that.
fn factors(k: usize, i: usize) -> impl Iterator<Item = Spot> {
    let spot_of = move |(sign, past)| {
        let dividend = a(i, k, sign * (200_000 + past));
        [100, -100].map(|pivot| spot(&[a(k, k, pivot), dividend, f(k, 0)]))
    };
    SIDES.into_iter().flat_map(spot_of)
}

/// First a product at the limit, then one past it that the entry takes back.
fn entries(k: usize, i: usize, j: usize) -> impl Iterator<Item = Spot> {
    SIDES.into_iter().flat_map(move |(sign, past)| {
        let pivot_row = [a(k, k, ONE), a(k, j, -1_000 * ONE), f(j, 0)];
        [(2, 0), (3, -1_000 * ONE)].map(|(factor, before)| {
            let row = [
                a(i, k, sign * factor * ONE),
                a(i, j, sign * (before + past)),
            ];
            spot(&[&pivot_row[..], &row[..]].concat())
        })
    })
}

fn right_sides(k: usize, i: usize) -> impl Iterator<Item = Spot> {
    SIDES.into_iter().flat_map(move |(sign, past)| {
        let pivot_row = [a(k, k, ONE), f(k, -1_000 * ONE)];
        [(2, 0), (3, -1_000 * ONE)].map(|(factor, before)| {
            let row = [a(i, k, sign * factor * ONE), f(i, sign * (before + past))];
            spot(&[&pivot_row[..], &row[..]].concat())
        })
    })
}

/// The pivot of 4 takes the quotient back into the range: the numerator has a
/// test of its own.
fn numerators(i: usize, j: usize) -> impl Iterator<Item = Spot> {
    SIDES.into_iter().flat_map(move |(sign, past)| {
        let others = [a(i, i, 4 * ONE), a(j, j, ONE), f(j, -1_000 * ONE)];
        [(2, 0), (3, -1_000 * ONE)].map(|(entry, before)| {
            let row = [a(i, j, sign * entry * ONE), f(i, sign * (before + past))];
            spot(&[&others[..], &row[..]].concat())
        })
    })
}

/// Two products of 4,000,000 that differ by 2,000 units.
fn cancelling_numerators(i: usize, j: usize, l: usize) -> impl Iterator<Item = Spot> {
    SIDES.into_iter().map(move |(sign, past)| {
        spot(&[
            a(i, i, 4 * ONE),
            a(i, j, sign * LIMIT),
            f(j, LIMIT - 1),
            a(i, l, -sign * LIMIT),
            f(l, LIMIT),
            f(i, sign * (LIMIT - 2_000 + past)),
        ])
    })
}

/// Two products of about half a unit that come to one or two, rounded once.
fn halved_numerators(i: usize, j: usize, l: usize) -> impl Iterator<Item = Spot> {
    SIDES.into_iter().flat_map(move |(sign, past)| {
        let sums = [(499_999, 1), (500_000, 1), (500_001, 2)];
        sums.map(|(entry, units)| {
            spot(&[
                a(i, i, 4 * ONE),
                a(i, j, 500_000),
                f(j, sign),
                a(i, l, entry),
                f(l, sign),
                f(i, sign * (units - LIMIT - past)),
            ])
        })
    })
}

/// One or two such numerators. With each product rounded they are all past the limit.
pub fn escaping(random: &mut Random, n: usize) -> System {
    let mut system = identity(n);
    for _ in 0..random.between(1, 2).min(n as i64 - 2) {
        let row = random.between(1, n as i64 - 2) as usize;
        let spots: Vec<_> = halved_numerators(row, n - 1, n).collect();
        spots[random.below(spots.len() as u64) as usize].plant(&mut system);
    }
    system
}

fn quotients(i: usize) -> impl Iterator<Item = Spot> {
    SIDES.into_iter().flat_map(move |(sign, past)| {
        let up_to_one = Setting::A(i, i, Interval::new(1, ONE));
        [
            spot(&[a(i, i, 100), f(i, sign * (200_000 + past))]),
            spot(&[a(i, i, -100), f(i, sign * (200_000 + past))]),
            spot(&[up_to_one, f(i, sign * (2_000 + past))]),
        ]
    })
}

/// Only from a balance: the share lies in the range, 1 less it does not. As an
/// entry of A it is out of the range by itself.
fn formings(i: usize) -> impl Iterator<Item = Spot> {
    [LIMIT, LIMIT + 1, LIMIT + ONE]
        .into_iter()
        .map(move |hi| spot(&[Setting::A(i, i, Interval::new(ONE, hi))]))
}

#[cfg(test)]
mod tests {
    use super::*;
    use crate::reference::{calculate, Call, Phase, Stop};

    /// How many spots in four equations stop so, how many are accepted, and how
    /// many there are.
    fn planted(spots: impl Iterator<Item = Spot>, stop: Stop) -> [usize; 3] {
        let ends: Vec<_> = spots
            .map(|spot| {
                let mut system = identity(4);
                spot.plant(&mut system);
                calculate(Call::Eliminate, system).end
            })
            .collect();
        let stopped = ends.iter().filter(|end| **end == Err(stop));
        let accepted = ends.iter().filter(|end| end.is_ok());
        [stopped.count(), accepted.count(), ends.len()]
    }

    /// Of every four sides two are accepted and two are refused, in the phase
    /// and the row that were meant.
    fn assert_halved(spots: impl Iterator<Item = Spot>, phase: Phase, row: usize) {
        let [stopped, accepted, all] = planted(spots, Stop::OutOfRange { phase, row });
        assert!(all >= 4);
        assert_eq!(
            [2 * stopped, 2 * accepted],
            [all; 2],
            "{phase:?} in row {row}"
        );
    }

    #[test]
    fn spots_lie_at_the_limit_and_one_unit_past_it() {
        for i in 1..=4 {
            assert_halved(quotients(i), Phase::Quotient, i);
            for k in 1..i {
                assert_halved(factors(k, i), Phase::Factor, i);
                assert_halved(right_sides(k, i), Phase::RightSide, i);
                (k + 1..=4).for_each(|j| assert_halved(entries(k, i, j), Phase::Entry, i));
            }
            for j in i + 1..=4 {
                assert_halved(numerators(i, j), Phase::Numerator, i);
                for l in j + 1..=4 {
                    assert_halved(cancelling_numerators(i, j, l), Phase::Numerator, i);
                    assert_halved(halved_numerators(i, j, l), Phase::Numerator, i);
                }
            }
        }
    }

    /// The row that comes to place i is at the limit, or past it.
    #[test]
    fn swapped_rows_are_named_by_their_new_place() {
        for i in 2..=4 {
            for k in 1..i {
                let (phase, row) = (Phase::Factor, i);
                let stop = Stop::OutOfRange { phase, row };
                assert_eq!(planted(swaps(k, i), stop), [1, 3, 4]);
            }
        }
    }

    #[test]
    fn pivots_contain_zero_or_miss_it() {
        for k in 1..=4 {
            assert_eq!(planted(pivots(k), Stop::Pivot { k }), [5, 2, 7]);
        }
    }
}
