//! The calls, as one of the sides does them.

use crate::case::Slices;
use crate::reference::{self, Call, HalfCall, Interval, ListCall, Operation, Outcome, Pass, Step};

/// A step's answer laid flat: number, place, lower end, upper end.
pub type Flat = (u64, u64, i64, i64);

/// Slices that a call only reads can be altered too, so that a forbidden change
/// is seen.
pub trait Side {
    fn step(&self, operation: Operation, a: Interval, b: Interval) -> Flat;
    fn eliminate(&self, call: Call, n: usize, lent: Slices) -> Outcome;
    fn start_box(&self, n: usize, lent: Slices) -> Outcome;
    fn sweep(&self, pass: Pass, n: usize, lent: Slices, allowed: usize) -> Outcome;
    /// In place of the matrix a list of transfers is lent, four numbers to each.
    fn transfers(&self, call: ListCall, n: usize, lent: Slices) -> Outcome;
    /// On a state; n and the slices are a load's.
    fn half_rows(&self, call: HalfCall, state: &mut [i64], n: usize, lent: Slices) -> Outcome;
    /// One of the two itself, or an empty part where the first begins.
    fn narrower<'a>(&self, n: usize, first: &'a [i64], second: &'a [i64]) -> &'a [i64];
    fn report(&self, text: &mut [u8], out: &mut [u8]) -> Outcome;
    /// The place of the first such byte from a place on, or the length if there is none.
    fn first_byte(&self, bytes: &mut [u8], from: usize, sought: u8) -> usize;
}

/// The implementation in this package.
pub struct Reference;

impl Side for Reference {
    fn step(&self, operation: Operation, a: Interval, b: Interval) -> Flat {
        match reference::step(operation, a, b) {
            Step::Value(Interval { lo, hi }) => (0, 0, lo, hi),
            Step::Refused { number, place } => (number, place, 0, 0),
        }
    }

    fn eliminate(&self, call: Call, n: usize, lent: Slices) -> Outcome {
        let (matrix, right_side, bounds) = (lent.matrix, lent.right_side, lent.bounds);
        match call {
            Call::Eliminate => reference::eliminate(n, matrix, right_side, bounds),
            Call::EliminateBalance => reference::eliminate_balance(n, matrix, right_side, bounds),
        }
    }

    fn start_box(&self, n: usize, lent: Slices) -> Outcome {
        reference::start_box(n, lent.matrix, lent.right_side, lent.bounds)
    }

    fn sweep(&self, pass: Pass, n: usize, lent: Slices, allowed: usize) -> Outcome {
        let (matrix, right_side, bounds) = (lent.matrix, lent.right_side, lent.bounds);
        reference::sweep(pass, n, matrix, right_side, bounds, allowed)
    }

    fn transfers(&self, call: ListCall, n: usize, lent: Slices) -> Outcome {
        reference::transfers(call, n, lent.matrix, lent.right_side, lent.bounds)
    }

    fn half_rows(&self, call: HalfCall, state: &mut [i64], n: usize, lent: Slices) -> Outcome {
        let slices = [&*lent.matrix, lent.right_side, lent.bounds];
        reference::half_rows(call, state, n, slices)
    }

    fn narrower<'a>(&self, n: usize, first: &'a [i64], second: &'a [i64]) -> &'a [i64] {
        reference::narrower(n, first, second)
    }

    fn report(&self, text: &mut [u8], out: &mut [u8]) -> Outcome {
        reference::report(text, out)
    }

    fn first_byte(&self, bytes: &mut [u8], from: usize, sought: u8) -> usize {
        reference::first_byte(bytes, from, sought).unwrap_or(bytes.len())
    }
}
