//! Random systems A·x = f of several kinds.

use super::balance::balance_of;
use super::spots::escaping;
use crate::generator::{rows, Random};
use crate::reference::{Interval, System, LIMIT};

const ONE: i64 = 1_000_000;
const ZERO: Interval = Interval::point(0);

#[derive(Clone, Copy)]
enum Signs {
    Mixed,
    Positive,
    Negative,
}

#[derive(Clone, Copy)]
enum Widths {
    Points,
    Narrow,
    Wide,
}

/// How the entries of one system are made.
struct Style {
    signs: Signs,
    widths: Widths,
    /// The greatest diagonal entries go up to four times this.
    scale: i64,
}

/// A system of any kind.
pub fn any(random: &mut Random, n: usize) -> System {
    match random.below(44) {
        0..=5 => dominant(random, n),
        6 | 7 => shares(random, n),
        8 => triangular(random, n, true),
        9 => triangular(random, n, false),
        10 => permuted(random, n),
        11 => small_numbers(random, n),
        12 => arrow(random, n),
        13 => cancelling(random, n),
        14 => sparse(random, n),
        15 => free(random, n),
        16 | 17 => balance_of(&rows::any(random, n)),
        18 | 19 => escaping(random, n),
        20..=37 => shuffled(random, n),
        _ => holed(random, n),
    }
}

fn style(random: &mut Random) -> Style {
    let scale = match random.below(4) {
        0 => 1_000 + random.magnitude(LIMIT / 8),
        1 => random.pick(&[1_000, 10_000, 10 * ONE, 100 * ONE, LIMIT / 5]),
        _ => ONE,
    };
    Style {
        signs: random.pick(&[Signs::Mixed, Signs::Positive, Signs::Negative]),
        widths: random.pick(&[Widths::Points, Widths::Narrow, Widths::Wide]),
        scale,
    }
}

impl Style {
    fn signed(&self, random: &mut Random, value: i64) -> i64 {
        match self.signs {
            Signs::Mixed => random.signed(value),
            Signs::Positive => value,
            Signs::Negative => -value,
        }
    }

    /// Both ends at most `cap` away from 0.
    fn entry(&self, random: &mut Random, cap: i64) -> Interval {
        let value = random.between(0, cap);
        let value = self.signed(random, value);
        let other = match self.widths {
            Widths::Points => value,
            Widths::Narrow => (value + random.magnitude(1_000)).min(cap),
            Widths::Wide => {
                let other = random.between(0, cap);
                self.signed(random, other)
            }
        };
        Interval::new(value.min(other), value.max(other))
    }

    /// At least `least` away from 0, and of one sign.
    fn diagonal(&self, random: &mut Random, least: i64) -> Interval {
        let far = match self.widths {
            Widths::Points => least,
            Widths::Narrow => least + random.magnitude(1_000),
            Widths::Wide => least + random.between(0, least),
        };
        match self.signed(random, 1) {
            1 => Interval::new(least, far.min(LIMIT)),
            _ => Interval::new(-far.min(LIMIT), -least),
        }
    }

    /// As much as a solution of any magnitude needs, or 0.
    fn right_side(&self, random: &mut Random, pivot: i64) -> Interval {
        let reach = random.pick(&[0, ONE, 50 * ONE, 500 * ONE, LIMIT]);
        let solution = random.magnitude(reach);
        let cap = i128::from(pivot) * i128::from(solution) / i128::from(ONE);
        self.entry(random, cap.min(i128::from(LIMIT)) as i64)
    }
}

/// Each diagonal entry outweighs the rest of its row, so that mostly every
/// pivot keeps off 0.
fn dominant(random: &mut Random, n: usize) -> System {
    let style = style(random);
    let weight = random.pick(&[100, 500, 900, 1_000]);
    let empty_places = random.pick(&[1, 2, 4]);
    let mut system = System::noughts(n);
    for i in 1..=n {
        let least = style.scale + random.between(0, style.scale);
        let cap = least * weight / 1_000 / (n as i64 - 1).max(1);
        for j in (1..=n).filter(|j| *j != i) {
            if empty_places == 1 || random.once_in(empty_places) {
                system.set_a(i, j, style.entry(random, cap));
            }
        }
        system.set_a(i, i, style.diagonal(random, least));
        system.set_f(i, style.right_side(random, least));
    }
    system
}

/// From a balance of shares that are not negative and come to less than one
/// in each column.
fn shares(random: &mut Random, n: usize) -> System {
    let mut balance = System::noughts(n);
    let (widths, signs) = (Widths::Wide, Signs::Positive);
    let scale = ONE;
    let wide = Style {
        signs,
        widths,
        scale,
    };
    let cap = random.between(1, ONE - 1) / n as i64;
    for i in 1..=n {
        for j in 1..=n {
            balance.set_a(i, j, wide.entry(random, cap));
        }
        balance.set_f(i, wide.right_side(random, ONE / 2));
    }
    // Forming I − A twice leads back: this is I − B.
    balance_of(&balance)
}

/// Nothing below the diagonal, or nothing above it.
fn triangular(random: &mut Random, n: usize, upper: bool) -> System {
    let mut system = dominant(random, n);
    for i in 1..=n {
        for j in (1..=n).filter(|j| *j != i) {
            if (i > j) == upper {
                system.set_a(i, j, ZERO);
            }
        }
    }
    system
}

/// Rows in another sequence: pivots mostly contain 0 or are very small.
fn permuted(random: &mut Random, n: usize) -> System {
    let mut system = dominant(random, n);
    for _ in 0..random.between(1, 3) {
        let first = random.between(1, n as i64) as usize;
        let second = random.between(1, n as i64) as usize;
        system.exchange_rows(first, second);
    }
    system
}

/// Rows of a triangle, one moved to the end or all in any sequence: many steps have
/// to look for their row, and some swaps undo others.
fn shuffled(random: &mut Random, n: usize) -> System {
    let mut system = triangular(random, n, true);
    let moved = random.between(1, n as i64) as usize;
    if random.once_in(2) {
        (moved..n).for_each(|i| system.exchange_rows(i, i + 1));
    } else {
        for i in 2..=n {
            let other = random.between(1, i as i64) as usize;
            system.exchange_rows(i, other);
        }
    }
    system
}

/// Some diagonal entries contain 0, in any way.
fn holed(random: &mut Random, n: usize) -> System {
    let mut system = dominant(random, n);
    for i in 1..=n {
        if random.once_in(3) {
            let below = random.pick(&[0, 0, 1, 1_000, ONE]);
            let above = random.pick(&[0, 0, 1, 1_000, ONE]);
            system.set_a(i, i, Interval::new(-below, above));
        }
    }
    system
}

/// Whole and half numbers: exact results, and pivots that are exactly 0.
fn small_numbers(random: &mut Random, n: usize) -> System {
    let choices = [-2, -1, -1, 0, 0, 0, 0, 1, 1, 2, 3, 4].map(|halves| halves * ONE / 2);
    let mut system = System::noughts(n);
    for i in 1..=n {
        for j in 1..=n {
            let heavy = if i == j { 2 * ONE } else { 0 };
            system.set_a(i, j, Interval::point(heavy + random.pick(&choices)));
        }
        system.set_f(i, Interval::point(10 * random.pick(&choices)));
    }
    system
}

/// Diagonal, last row and last column only.
fn arrow(random: &mut Random, n: usize) -> System {
    let style = style(random);
    let mut system = System::noughts(n);
    for i in 1..=n {
        let least = style.scale + random.between(0, style.scale);
        system.set_a(i, n, style.entry(random, least));
        system.set_a(n, i, style.entry(random, least));
        system.set_a(i, i, style.diagonal(random, least));
        system.set_f(i, style.right_side(random, least));
    }
    system
}

/// Upper triangles in which far larger products than the range has room for
/// take each other away again.
fn cancelling(random: &mut Random, n: usize) -> System {
    let mut system = System::noughts(n);
    let solution = LIMIT / (1 + random.between(0, 9));
    for i in 1..=n {
        let large = random.between(LIMIT / 2, LIMIT);
        for (turn, j) in (i + 1..=n).enumerate() {
            let sign = if turn % 2 == 0 { 1 } else { -1 };
            system.set_a(i, j, Interval::point(sign * large));
        }
        system.set_a(i, i, Interval::point(ONE));
        let left = if (n - i).is_multiple_of(2) { 0 } else { large };
        let product = i128::from(left) * i128::from(solution) / i128::from(ONE);
        let due = i128::from(solution) + product;
        let fits = due <= i128::from(LIMIT);
        let value = if fits {
            due as i64
        } else {
            random.between(0, LIMIT)
        };
        system.set_f(i, Interval::point(value));
    }
    system
}

/// A heavy diagonal and very few entries of any magnitude.
fn sparse(random: &mut Random, n: usize) -> System {
    let mut system = System::noughts(n);
    let style = style(random);
    for i in 1..=n {
        system.set_a(i, i, style.diagonal(random, style.scale));
        system.set_f(i, style.right_side(random, style.scale));
    }
    for _ in 0..random.between(1, 2 + n as i64 / 2) {
        let i = random.between(1, n as i64) as usize;
        let j = random.between(1, n as i64) as usize;
        let cap = random.magnitude(LIMIT);
        system.set_a(i, j, style.entry(random, cap));
    }
    system
}

/// Any entries at all, the diagonal mostly without 0.
fn free(random: &mut Random, n: usize) -> System {
    let style = style(random);
    let mut system = System::noughts(n);
    for i in 1..=n {
        for j in 1..=n {
            let cap = random.magnitude(LIMIT);
            system.set_a(i, j, style.entry(random, cap));
        }
        if !random.once_in(4) {
            let least = 1 + random.magnitude(LIMIT / 2);
            system.set_a(i, i, style.diagonal(random, least));
        }
        let cap = random.magnitude(LIMIT);
        system.set_f(i, style.entry(random, cap));
    }
    system
}
