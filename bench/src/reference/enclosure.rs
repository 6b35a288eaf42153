//! What an elimination is for: the box that it writes holds every solution.
//! Solutions are made here by determinants, without any elimination.

use super::{calculate, Call, System};
use super::{Interval, SCALE};
use crate::case::Case;
use crate::generator::{random_cases_up_to, Random};

/// A system of single numbers within one of intervals, row by row.
struct Choice {
    n: usize,
    a: Vec<i128>,
    f: Vec<i128>,
}

fn chosen(random: &mut Random, interval: Interval) -> i128 {
    let width = interval.hi - interval.lo;
    let inside = random.between(0, width);
    i128::from(interval.lo + random.pick(&[0, width, inside]))
}

fn choice(random: &mut Random, system: &System) -> Choice {
    let n = system.size();
    let places = (0..n * n).map(|place| (place / n + 1, place % n + 1));
    let a = places
        .map(|(i, j)| chosen(random, system.a(i, j)))
        .collect();
    let f = (1..=n).map(|i| chosen(random, system.f(i))).collect();
    Choice { n, a, f }
}

impl Choice {
    /// Cramer's rule: column j gives way to the right side.
    fn with_right_side_in(&self, j: usize) -> Vec<i128> {
        let mut a = self.a.clone();
        (0..self.n).for_each(|i| a[i * self.n + j] = self.f[i]);
        a
    }

    /// Lower·q ≤ p ≤ upper·q for each x(j) = p/q in units.
    fn is_solved_inside(&self, bounds: &[Interval]) -> bool {
        let q = determinant(self.n, &self.a);
        assert_ne!(q, 0, "an accepted system has no solution");
        let sign = q.signum();
        (0..self.n).all(|j| {
            let p = determinant(self.n, &self.with_right_side_in(j)) * SCALE;
            let (lo, hi) = (i128::from(bounds[j].lo), i128::from(bounds[j].hi));
            lo * q * sign <= p * sign && p * sign <= hi * q * sign
        })
    }
}

fn determinant(n: usize, a: &[i128]) -> i128 {
    match n {
        1 => a[0],
        2 => a[0] * a[3] - a[1] * a[2],
        _ => {
            let minor = |b: usize, c: usize| a[3 + b] * a[6 + c] - a[3 + c] * a[6 + b];
            a[0] * minor(1, 2) - a[1] * minor(0, 2) + a[2] * minor(0, 1)
        }
    }
}

/// Small enough that three of them, times a million, stay countable.
fn is_moderate(case: &Case) -> bool {
    let numbers = case.matrix.iter().chain(&case.right_side);
    let mut magnitudes = numbers.map(|number| number.unsigned_abs());
    magnitudes.all(|magnitude| magnitude <= 1_000_000_000)
}

#[test]
fn every_solution_lies_in_the_box() {
    let mut random = Random::new(3);
    let mut checked = 0;
    for case in random_cases_up_to(3, Call::Eliminate, 3).take(60_000) {
        let read = System::read(case.n, &case.matrix, &case.right_side, case.bounds.len());
        let (Ok(system), true) = (read, is_moderate(&case)) else {
            continue;
        };
        if let Ok(bounds) = calculate(Call::Eliminate, system.clone()).end {
            for _ in 0..10 {
                let choice = choice(&mut random, &system);
                assert!(choice.is_solved_inside(&bounds), "{system:?}");
            }
            checked += 1;
        }
    }
    assert!(checked > 20_000, "only {checked} checked");
}

/// A check that any box passes would show nothing.
#[test]
fn a_box_that_is_a_unit_too_narrow_is_noticed() {
    let point = |value: i64| Interval::point(value);
    let matrix = vec![point(2_000_000), point(0), point(0), point(4_000_000)];
    let system = System::new(2, matrix, vec![point(2_000_000), point(2_000_000)]);
    let choice = choice(&mut Random::new(1), &system);
    let bounds = [point(1_000_000), point(500_000)];
    assert!(choice.is_solved_inside(&bounds));
    for wrong in [
        [point(1_000_001), point(500_000)],
        [point(999_999), point(500_000)],
        [point(1_000_000), Interval::new(500_001, 600_000)],
    ] {
        assert!(!choice.is_solved_inside(&wrong));
    }
}
