//! Random balances x = B·x + b of several kinds.

use crate::generator::systems::balance::balance_of;
use crate::generator::systems::matrices;
use crate::generator::{rows, Random};
use crate::reference::{Interval, System, LIMIT};

const ONE: i64 = 1_000_000;

/// How the intervals of one balance are made.
#[derive(Clone, Copy)]
struct Style {
    /// False if no end is below 0.
    signed: bool,
    /// The most by which the ends of a share differ.
    width: i64,
}

/// A balance of any kind.
pub fn any(random: &mut Random, n: usize) -> System {
    match random.below(13) {
        0..=3 => full(random, n, &[300_000, 900_000, 999_999]),
        4 | 5 => full(random, n, &[ONE, 1_100_000, 2 * ONE, 50 * ONE]),
        6 => balance_of(&matrices::any(random, n)),
        7 => sparse(random, n),
        8 => halves(random, n),
        9 => ring(random, n),
        10 => slow(random, n),
        11 => rows::any(random, n),
        _ => free(random, n),
    }
}

fn style(random: &mut Random) -> Style {
    Style {
        signed: random.once_in(2),
        width: random.pick(&[0, 0, 1, 1_000, ONE, LIMIT]),
    }
}

/// Both ends at most `cap` away from 0.
fn interval(random: &mut Random, style: Style, cap: i64) -> Interval {
    let value = random.between(0, cap);
    let lo = if style.signed {
        random.signed(value)
    } else {
        value
    };
    let width = random.magnitude(style.width);
    Interval::new(lo, (lo + width).min(cap))
}

fn deliveries(random: &mut Random, balance: &mut System) {
    let style = style(random);
    let reach = random.pick(&[0, 10, ONE, 100 * ONE, LIMIT]);
    for i in 1..=balance.size() {
        let cap = random.magnitude(reach);
        balance.set_f(i, interval(random, style, cap));
    }
}

/// Each row of upper ends comes to at most one of `sums`.
fn full(random: &mut Random, n: usize, sums: &[i64]) -> System {
    let style = style(random);
    let cap = random.pick(sums) / n as i64;
    let mut balance = System::noughts(n);
    for i in 1..=n {
        for j in 1..=n {
            balance.set_a(i, j, interval(random, style, cap));
        }
    }
    deliveries(random, &mut balance);
    balance
}

/// A few shares of any magnitude.
fn sparse(random: &mut Random, n: usize) -> System {
    let style = style(random);
    let mut balance = System::noughts(n);
    for _ in 0..random.between(0, 2 * n as i64) {
        let i = random.between(1, n as i64) as usize;
        let j = random.between(1, n as i64) as usize;
        let cap = random.pick(&[1, 500_000, ONE, LIMIT]);
        balance.set_a(i, j, interval(random, style, cap));
    }
    deliveries(random, &mut balance);
    balance
}

/// Whole and half shares, so that many products need no rounding.
fn halves(random: &mut Random, n: usize) -> System {
    let mut balance = System::noughts(n);
    for i in 1..=n {
        for j in 1..=n {
            let halves = random.pick(&[0, 0, 0, 0, 0, 1, -1, 2, -2]);
            balance.set_a(i, j, Interval::point(halves * ONE / 2));
        }
    }
    deliveries(random, &mut balance);
    balance
}

/// Each vat gets from one other, so that a change goes round slowly.
fn ring(random: &mut Random, n: usize) -> System {
    let mut balance = System::noughts(n);
    let offset = random.between(0, n as i64 - 1) as usize;
    for i in 1..=n {
        let from = (i - 1 + offset) % n + 1;
        let share = random.pick(&[ONE, ONE, -ONE, 999_999, 900_000, 500_000]);
        balance.set_a(i, from, Interval::point(share));
    }
    deliveries(random, &mut balance);
    balance
}

/// Shares of about one, and deliveries of a few units: ends move slowly.
fn slow(random: &mut Random, n: usize) -> System {
    let mut balance = System::noughts(n);
    for i in 1..=n {
        let share = random.pick(&[ONE, ONE, 999_999, 1_000_001, -ONE, 999_000]);
        balance.set_a(i, i, Interval::point(share));
        let delivery = random.pick(&[0, 0, 1, -1, 5, -1_000]);
        balance.set_f(i, Interval::point(delivery));
    }
    balance
}

/// Any shares at all.
fn free(random: &mut Random, n: usize) -> System {
    let style = style(random);
    let mut balance = System::noughts(n);
    for i in 1..=n {
        for j in 1..=n {
            let cap = random.magnitude(LIMIT);
            balance.set_a(i, j, interval(random, style, cap));
        }
    }
    deliveries(random, &mut balance);
    balance
}
