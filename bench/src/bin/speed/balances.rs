//! The balances that are calculated, always the same ones.

use kifwaleb_bench::case::Case;
use kifwaleb_bench::generator::{settling, Random};
use kifwaleb_bench::plain;
use kifwaleb_bench::reference::{Interval, Outcome, Pass, System, DONE, LIMIT, MOST_SWEEPS};

const ONE: i64 = 1_000_000;

/// More than any call may take off, also by passes there and back.
const CHANGES: i64 = 3 * MOST_SWEEPS as i64;

/// No share is 0, none is negative, and each row comes to less than 0.9.
pub fn shares(n: usize) -> Case {
    Case::new(&dense(n, false))
}

/// The same with both signs, and some shares from below 0 to above 0.
pub fn mixed(n: usize) -> Case {
    Case::new(&dense(n, true))
}

/// As `shares`, but vat 1 gets half of what each vat has: its row comes to more
/// than one, and each column to less.
pub fn heavy_row(n: usize) -> Case {
    let mut case = shares(n);
    case.matrix[..2 * n].fill(ONE / 2);
    case.matrix[2 * n..].iter_mut().for_each(|end| *end /= 2);
    case
}

/// As `shares`, but most are 0: all but two of 32 in a row, and three deliveries in
/// four.
pub fn noughts(n: usize) -> Case {
    let mut case = shares(n);
    for (place, ends) in case.matrix.chunks_exact_mut(2).enumerate() {
        if (place / n + place % n) % 16 != 0 {
            ends.fill(0);
        }
    }
    let deliveries = case.right_side.chunks_exact_mut(2).enumerate();
    let three_in_four = deliveries.filter(|(vat, _)| vat % 4 != 0);
    three_in_four.for_each(|(_, ends)| ends.fill(0));
    case
}

/// With so many of its shares, all over the square; the others are 0.
pub fn thinned(mut case: Case, wanted: usize) -> Case {
    let all = case.n * case.n;
    for (place, ends) in case.matrix.chunks_exact_mut(2).enumerate() {
        if place * wanted % all >= wanted {
            ends.fill(0);
        }
    }
    case
}

/// The list of the shares that are not 0, or of all.
pub fn listed(square: &Case, noughts: bool) -> Case {
    let mut lent = square.clone();
    lent.matrix.clear();
    for (place, ends) in square.matrix.chunks_exact(2).enumerate() {
        if noughts || ends != [0, 0] {
            let vats = [1 + place / lent.n, 1 + place % lent.n].map(|vat| vat as i64);
            lent.matrix.extend(vats.iter().chain(ends));
        }
    }
    lent
}

fn dense(n: usize, signed: bool) -> System {
    let mut random = Random::new(n as u64);
    let mut balance = System::noughts(n);
    let cap = 900_000 / n as i64;
    for i in 1..=n {
        for j in 1..=n {
            balance.set_a(i, j, interval(&mut random, signed, cap));
        }
        balance.set_f(i, interval(&mut random, signed, 10 * ONE));
    }
    balance
}

/// From a half to the whole of `cap` off 0 and a hundredth of it wide; if
/// signed, one in eight contains 0.
fn interval(random: &mut Random, signed: bool, cap: i64) -> Interval {
    let width = cap / 100;
    let lo = random.between(cap / 2, cap - width);
    if !signed {
        return Interval::new(lo, lo + width);
    }
    if random.once_in(8) {
        return Interval::new(-width, width);
    }
    let lo = random.signed(lo);
    Interval::new(lo, lo + width)
}

/// With a start box that is a tenth wider on either side than what elimination
/// gives. A sweep tightens it.
pub fn with_wide_box(mut case: Case) -> Case {
    assert_eq!(eliminate(&mut case), Outcome::DONE);
    for ends in case.bounds.chunks_exact_mut(2) {
        ends[0] -= ends[0].abs() / 10 + 1;
        ends[1] += ends[1].abs() / 10 + 1;
    }
    case
}

/// As `mixed`, with shares that are too far for sums in one word: a sweep tightens no box with
/// them. It does so at the last vat, which gets nothing.
pub fn wide(n: usize) -> Case {
    let mut case = mixed(n);
    let ends = case.matrix.iter_mut();
    ends.for_each(|end| *end *= 400 * n as i64);
    case.bounds = [-LIMIT, LIMIT].repeat(n);
    with_last_of(case, &emptied(n))
}

/// As `wide`, with no share and no box below 0, and with sums past 2^63 parts.
pub fn far(n: usize) -> Case {
    let mut case = shares(n);
    let ends = case.matrix.iter_mut();
    ends.for_each(|end| *end = *end * 500 * n as i64 + 1_500 * ONE);
    case.right_side.fill(0);
    case.bounds = (1..=n as i64)
        .flat_map(|vat| [0, LIMIT - 20 * ONE * vat])
        .collect();
    with_last_of(case, &emptied(n))
}

/// With one share in the middle that reaches as far below 0 as above it.
pub fn dipped(mut case: Case) -> Case {
    let place = case.n * (case.n / 2) + case.n / 2;
    case.matrix[2 * place] = -case.matrix[2 * place + 1];
    case
}

/// `wide` or `far`, with the last vat as in `slow_noughts`.
pub fn slowly(case: Case) -> Case {
    let slow = slow_noughts(case.n);
    with_last_of(case, &slow)
}

/// Nothing is given, and the box of each vat is to become 0.
fn emptied(n: usize) -> Case {
    let mut case = Case::new(&System::noughts(n));
    case.bounds = [0, 5].repeat(n);
    case
}

/// With the last vat of another balance of as many vats.
fn with_last_of(mut case: Case, other: &Case) -> Case {
    let last = 2 * (case.n - 1);
    let row = last * case.n;
    case.matrix[row..].copy_from_slice(&other.matrix[row..]);
    case.right_side[last..].copy_from_slice(&other.right_side[last..]);
    case.bounds[last..].copy_from_slice(&other.bounds[last..]);
    case
}

/// All shares but one are 0. One end moves by one unit in each sweep.
pub fn slow_noughts(n: usize) -> Case {
    settling(n, n, CHANGES)
}

/// The last vat as in `slow_noughts`; the others are settled.
pub fn slow(mut others: Case) -> Case {
    let n = others.n + 1;
    assert_eq!(eliminate(&mut others), Outcome::DONE);
    let Case {
        matrix,
        right_side,
        bounds,
        ..
    } = &mut others;
    let there = Pass::There;
    let settled = plain::sweep(there, n - 1, matrix, right_side, bounds, MOST_SWEEPS);
    assert_eq!(settled.number, DONE);
    let mut case = slow_noughts(n);
    let rows = case.matrix.chunks_exact_mut(2 * n);
    for (row, dense) in rows.zip(matrix.chunks_exact(2 * n - 2)) {
        row[..2 * n - 2].copy_from_slice(dense);
    }
    case.right_side[..2 * n - 2].copy_from_slice(right_side);
    case.bounds[..2 * n - 2].copy_from_slice(bounds);
    case
}

/// Every end is below 0 and has ten digits, so that no text of n vats is
/// longer: I − B has about 1000 everywhere and 2000 on its diagonal.
pub fn longest(n: usize) -> Case {
    let mut random = Random::new(n as u64);
    let mut balance = System::noughts(n);
    for i in 1..=n {
        for j in 1..=n {
            let own = if i == j { 998 * ONE } else { 0 };
            let hi = -1_000 * ONE - own - random.between(0, ONE / 2);
            balance.set_a(i, j, Interval::new(hi - random.between(0, 99), hi));
        }
        let hi = -1_000 * ONE - random.between(0, 999 * ONE);
        balance.set_f(i, Interval::new(hi - random.between(0, 99), hi));
    }
    Case::new(&balance)
}

fn eliminate(case: &mut Case) -> Outcome {
    let Case {
        n,
        matrix,
        right_side,
        bounds,
    } = case;
    plain::eliminate_balance(*n, matrix, right_side, bounds)
}
