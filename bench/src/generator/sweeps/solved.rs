//! Random balances with a solution that is known exactly.

use super::starts::{eliminated, spread};
use super::{allowances, lent};
use crate::generator::Random;
use crate::reference::{Interval, System, LIMIT, SCALE};
use crate::sweep_list::{Solution, SweepList};

const ONE: i64 = 1_000_000;

/// Fractions in units over one denominator.
struct Fractions {
    numerators: Vec<i128>,
    denominator: i128,
}

/// First the solution, then the shares, then the deliveries that go with both;
/// last the intervals around them.
pub fn list(random: &mut Random, n: usize) -> SweepList {
    let mut reach = random.pick(&[10, 1_000, ONE, 100 * ONE, LIMIT / 2]);
    loop {
        let weights = fractions(random, n, reach);
        let cap = random.pick(&[ONE / 2, 900_000, 2 * ONE]) / n as i64;
        let shares = fractions(random, n * n, cap);
        if let Some(balance) = balance(random, &weights, &shares) {
            return around(random, &balance, weights);
        }
        reach /= 2;
    }
}

fn fractions(random: &mut Random, count: usize, reach: i64) -> Fractions {
    let denominator = random.pick(&[1, 1, 2, 3, 7, 10]);
    let mut numerator = || {
        let value = random.magnitude(reach * denominator);
        i128::from(random.signed(value))
    };
    Fractions {
        numerators: (0..count).map(|_| numerator()).collect(),
        denominator: i128::from(denominator),
    }
}

/// The narrowest interval around a fraction, or a wider one. The rest of a
/// Euclidean division is never below 0, so that this rounds downwards.
fn enclosed(random: &mut Random, numerator: i128, denominator: i128) -> Interval {
    let lo = numerator.div_euclid(denominator) as i64;
    let hi = -(-numerator).div_euclid(denominator) as i64;
    let reach = random.pick(&[0, 0, 1, 1_000, ONE]);
    let (below, above) = (random.magnitude(reach), random.magnitude(reach));
    Interval::new(lo - below, hi + above)
}

/// Nothing if a delivery would leave the range.
fn balance(random: &mut Random, weights: &Fractions, shares: &Fractions) -> Option<System> {
    let n = weights.numerators.len();
    let all = shares.numerators.iter();
    let matrix = all.map(|share| enclosed(random, *share, shares.denominator));
    let matrix: Vec<_> = matrix.collect();
    // Over the denominators of weights and shares and over a million.
    let whole = shares.denominator * SCALE;
    let deliveries = (0..n).map(|i| {
        let row = shares.numerators[i * n..][..n].iter();
        let products = row.zip(&weights.numerators).map(|(share, x)| share * x);
        weights.numerators[i] * whole - products.sum::<i128>()
    });
    let right_side: Vec<_> = deliveries
        .map(|delivery| enclosed(random, delivery, weights.denominator * whole))
        .collect();
    let valid = matrix.iter().chain(&right_side).all(|i| i.is_valid());
    valid.then(|| System::new(n, matrix, right_side))
}

/// A start box that holds the solution.
fn around(random: &mut Random, balance: &System, weights: Fractions) -> SweepList {
    let solution = Solution {
        numerators: weights.numerators,
        denominator: weights.denominator,
    };
    let start = if random.once_in(3) {
        eliminated(random, balance)
    } else {
        let reach = random.pick(&[0, 1, 1_000, LIMIT]);
        let weights = solution.numerators.iter();
        let narrow = weights.map(|weight| enclosed(random, *weight, solution.denominator));
        let narrow: Vec<_> = narrow.collect();
        let both = narrow.into_iter();
        both.map(|interval| spread(interval, random.magnitude(reach), random.magnitude(reach)))
            .collect()
    };
    SweepList {
        lent: lent(balance, &start),
        calls: allowances::for_list(random, balance),
        solution: Some(solution),
    }
}

#[cfg(test)]
mod tests {
    use super::*;
    use crate::comparison::{compare, goals};
    use crate::reference::{calculate, Call};
    use crate::side::Reference;

    /// Also the boxes that elimination writes, from which many lists start.
    #[test]
    fn every_start_box_holds_the_solution() {
        let mut random = Random::new(11);
        for round in 0..20_000 {
            let list = list(&mut random, 1 + round % 8);
            let solution = list.solution.unwrap();
            assert!(solution.lies_in(&list.lent.bounds));
        }
    }

    #[test]
    fn the_reference_loses_no_solution() {
        let mut random = Random::new(12);
        let lists = (0..30_000).map(|round| list(&mut random, 1 + round % 10));
        let tally = compare(goals::of_sweeps(), lists, u64::MAX, &Reference).unwrap();
        assert!(tally.calls() > 30_000);
    }

    /// Otherwise the start would always be the widest box.
    #[test]
    fn eliminations_are_mostly_accepted() {
        let mut random = Random::new(13);
        let accepted = (0..2_000).filter(|round| {
            let lent = list(&mut random, 1 + round % 8).lent;
            let read = System::read(lent.n, &lent.matrix, &lent.right_side, 2 * lent.n);
            let end = calculate(Call::EliminateBalance, read.unwrap()).end;
            end.is_ok()
        });
        assert!(accepted.count() > 1_000);
    }
}
