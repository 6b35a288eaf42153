//! The edge lists of sweep calls, always the same.

use super::{faults, lent, slow, small};
use crate::case_file::Entry;
use crate::generator::rows;
use crate::reference::{Interval, Pass, System, LIMIT};
use crate::samples;
use crate::sweep_list::{Solution, SweepList};

const ONE: i64 = 1_000_000;

/// Every edge list, with ordinary calls, with symmetric ones, and with both in turn.
pub fn edge_lists() -> impl Iterator<Item = SweepList> {
    let [there, back] = Pass::ALL;
    let passes: [&[Pass]; 3] = [&[there], &[back], &[back, there]];
    let passes = passes.map(<[Pass]>::to_vec).into_iter();
    passes.flat_map(|passes| lists().map(move |list| list.with(&passes)))
}

fn lists() -> impl Iterator<Item = SweepList> {
    let sampled = samples::system_calls().into_iter();
    sampled
        .filter_map(|(call, lent)| match call {
            Entry::Sweep(_, allowed) => Some(SweepList::new(lent, &[allowed, 1])),
            _ => None,
        })
        .chain(solved())
        .chain(faults::sizes())
        .chain(faults::lengths())
        .chain(faults::allowances())
        .chain(faults::ends())
        .chain(faults::two_ends())
        .chain(small::one_vat())
        .chain(far_sums())
        .chain(carries())
        .chain(chains())
        .chain(broken_chains())
        .chain(touching())
        .chain(small::awkward_numbers())
        .chain(slow::lists())
        .chain(small::two_vats())
}

/// The program's input and both ends of its solutions.
fn solved() -> impl Iterator<Item = SweepList> {
    let sample = samples::program_input([0, 10 * ONE, 0, 10 * ONE]);
    let solutions = [[4_000_000, 2_000_000], [3_000_000, 1_500_000]];
    solutions.into_iter().map(move |weights| SweepList {
        solution: Some(Solution {
            numerators: weights.to_vec(),
            denominator: 1,
        }),
        ..SweepList::new(sample.clone(), &[1, 0, 1, 10_001, 3, 100, 1])
    })
}

/// From any weight of the vat with the row; the others have theirs.
fn carries() -> impl Iterator<Item = SweepList> {
    rows::carries().map(|balance| {
        let keeps = |i| (1..=32).all(|j| balance.a(i, j) == Interval::point(0));
        let any = Interval::new(-LIMIT, LIMIT);
        let start = (1..=32).map(|i| if keeps(i) { balance.f(i) } else { any });
        SweepList::new(lent(&balance, &start.collect::<Vec<_>>()), &[1, 2])
    })
}

/// Each vat gets all from its neighbour. From the vat before, one sweep is
/// enough; from the vat after, every sweep takes one vat further, and one pass there
/// and back is enough.
fn chains() -> impl Iterator<Item = SweepList> {
    (1..=32).flat_map(|n: usize| {
        let widest = vec![Interval::new(-LIMIT, LIMIT); n];
        let both = [chain(n, true), chain(n, false)];
        both.into_iter().flat_map(move |balance| {
            let case = lent(&balance, &widest);
            let lists = [
                vec![1, 1, 1],
                vec![n],
                vec![n + 1],
                vec![n.max(2) - 1, 0, 2, 9],
            ];
            lists.map(|allowed| SweepList::new(case.clone(), &allowed))
        })
    })
}

/// One vat cannot get what its neighbour gives: every sweep comes one vat nearer, a pass
/// there and back finds it on its way, or on its way back.
fn broken_chains() -> impl Iterator<Item = SweepList> {
    let sizes = [2, 3, 4, 8, 32].into_iter();
    let places = sizes.flat_map(|n: usize| (1..=n).map(move |vat| (n, vat)));
    places.flat_map(|(n, vat)| {
        [true, false].map(|forwards| {
            let mut start = vec![Interval::new(0, LIMIT); n];
            start[vat - 1] = Interval::new(8, 9);
            SweepList::new(lent(&chain(n, forwards), &start), &[1, n, 40])
        })
    })
}

fn chain(n: usize, forwards: bool) -> System {
    let mut balance = System::noughts(n);
    let first = if forwards { 1 } else { n };
    balance.set_f(first, Interval::new(5, 7));
    for i in (1..=n).filter(|i| *i != first) {
        let from = if forwards { i - 1 } else { i + 1 };
        balance.set_a(i, from, Interval::point(ONE));
    }
    balance
}

/// Without shares. One vat's delivery meets its start in one unit, or misses
/// it by one; all others are narrowed.
fn touching() -> impl Iterator<Item = SweepList> {
    let places = (1..=32).flat_map(|n: usize| {
        let vats = (1..=n).filter(move |vat| n <= 8 || n == 32 || *vat == n);
        vats.map(move |vat| (n, vat))
    });
    places.flat_map(|(n, vat)| {
        let deliveries = [
            Interval::point(20),
            Interval::point(21),
            Interval::new(20, 40),
            Interval::new(21, 40),
            Interval::point(10),
            Interval::point(9),
            Interval::new(-40, 10),
            Interval::new(-40, 9),
        ];
        deliveries.map(|delivery| {
            let mut balance = System::noughts(n);
            (1..=n).for_each(|i| balance.set_f(i, Interval::new(12, 15)));
            balance.set_f(vat, delivery);
            let start = vec![Interval::new(10, 20); n];
            SweepList::new(lent(&balance, &start), &[1, 2])
        })
    })
}

/// Sums and partial sums far out of the range, which take each other away or
/// do not.
fn far_sums() -> impl Iterator<Item = SweepList> {
    let sizes = [1, 2, 3, 4, 31, 32].into_iter();
    let every = sizes.flat_map(|n| (0..72).map(move |code| (n, code)));
    every.map(|(n, code)| {
        let far = [LIMIT, -LIMIT][code % 2];
        let step = [0, 1, 2][code / 2 % 3];
        let width = [0, 1, 2_000, LIMIT][code / 6 % 4];
        let signs = [[1, -1], [1, 1], [-1, -1]][code / 24];
        let mut balance = System::noughts(n);
        balance.set_f(1, Interval::point(far));
        balance.set_a(1, 1, Interval::new(step - 1, step));
        for j in 2..=n {
            balance.set_a(1, j, Interval::point(signs[j % 2] * LIMIT));
            balance.set_f(j, Interval::point(far));
        }
        let [low, high] = [far, far - far.signum() * width];
        let start = vec![Interval::new(low.min(high), low.max(high)); n];
        SweepList::new(lent(&balance, &start), &[1, 3])
    })
}
