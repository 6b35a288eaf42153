//! On the generator's cases every answer is the reference's.

use super::{eliminate_balance, report, start_box, sweep};
use crate::case::Slices;
use crate::comparison::{compare, goals, Elimination, Goal, Trial};
use crate::generator::{
    edge_cases, edge_lists, edge_texts, random_cases, random_lists, random_texts, starts_up_to,
};
use crate::reference::MOST_EQUATIONS;
use crate::reference::{Call, HalfCall, Interval, ListCall, Operation, Outcome, Pass};
use crate::side::{Flat, Side};

struct Plain;

impl Side for Plain {
    fn step(&self, _: Operation, _: Interval, _: Interval) -> Flat {
        unimplemented!("no task is a single step")
    }

    fn eliminate(&self, call: Call, n: usize, lent: Slices) -> Outcome {
        assert_eq!(call, Call::EliminateBalance, "every task is a balance");
        eliminate_balance(n, lent.matrix, lent.right_side, lent.bounds)
    }

    fn start_box(&self, n: usize, lent: Slices) -> Outcome {
        start_box(n, lent.matrix, lent.right_side, lent.bounds)
    }

    fn sweep(&self, pass: Pass, n: usize, lent: Slices, allowed: usize) -> Outcome {
        let (matrix, right_side, bounds) = (lent.matrix, lent.right_side, lent.bounds);
        sweep(pass, n, matrix, right_side, bounds, allowed)
    }

    fn transfers(&self, _: ListCall, _: usize, _: Slices) -> Outcome {
        unimplemented!("lists are timed against our own calls")
    }

    fn half_rows(&self, _: HalfCall, _: &mut [i64], _: usize, _: Slices) -> Outcome {
        unimplemented!("half rows are timed against our own calls")
    }

    fn narrower<'a>(&self, _: usize, _: &'a [i64], _: &'a [i64]) -> &'a [i64] {
        unimplemented!("no task chooses a box")
    }

    fn report(&self, text: &mut [u8], out: &mut [u8]) -> Outcome {
        report(text, out)
    }

    fn first_byte(&self, _: &mut [u8], _: usize, _: u8) -> usize {
        unimplemented!("no task is a search")
    }
}

/// Over everything that the reference can reach.
fn assert_same<T: Trial>(goals: Vec<Goal>, trials: impl Iterator<Item = T>, calls: u64) {
    let tally = compare(goals, trials, calls, &Plain);
    let tally = tally.unwrap_or_else(|difference| panic!("{difference}"));
    assert_eq!(tally.unreached(), [""; 0]);
}

#[test]
fn eliminations_are_the_same() {
    let call = Call::EliminateBalance;
    let cases = edge_cases(call).chain(random_cases(call, 31).take(100_000));
    let trials = cases.map(|lent| Elimination { call, lent });
    assert_same(goals::of_elimination(call), trials, u64::MAX);
}

#[test]
fn sweeps_are_the_same() {
    let lists = edge_lists().chain(random_lists(31));
    assert_same(goals::of_sweeps(), lists, 1_300_000);
}

#[test]
fn start_boxes_are_the_same() {
    let starts = starts_up_to(MOST_EQUATIONS, 31);
    assert_same(goals::of_start_box(), starts, 200_000);
}

#[test]
fn reports_are_the_same() {
    let texts = edge_texts().chain(random_texts(31).take(30_000));
    assert_same(goals::of_report(), texts, u64::MAX);
}
