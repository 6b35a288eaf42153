//! Random start boxes.

use crate::generator::Random;
use crate::reference::{calculate, sweeps, Call, Interval, System, LIMIT};

const WIDEST: Interval = Interval::new(-LIMIT, LIMIT);

/// In large balances an elimination takes long and is done less often.
const LARGE: usize = 12;

/// A start box of any kind.
pub fn any(random: &mut Random, balance: &System) -> Vec<Interval> {
    let n = balance.size();
    match random.below(12) {
        0 | 1 => vec![WIDEST; n],
        2 => vec![Interval::new(0, LIMIT); n],
        3 | 4 => eliminated(random, balance),
        5 => widened(random, balance),
        6 => points(random, n),
        7 => free(random, n),
        8 => about_the_deliveries(random, balance),
        _ => moved_at_one_vat(random, balance),
    }
}

/// The box that elimination writes, or the widest.
pub fn eliminated(random: &mut Random, balance: &System) -> Vec<Interval> {
    let n = balance.size();
    if n > LARGE && !random.once_in(4) {
        return vec![WIDEST; n];
    }
    let end = calculate(Call::EliminateBalance, balance.clone()).end;
    end.unwrap_or(vec![WIDEST; n])
}

/// Some units wider at each end, within the range.
pub fn spread(interval: Interval, below: i64, above: i64) -> Interval {
    let lo = (interval.lo - below).max(-LIMIT);
    Interval::new(lo, (interval.hi + above).min(LIMIT))
}

fn widened(random: &mut Random, balance: &System) -> Vec<Interval> {
    let reach = random.pick(&[1, 1_000, LIMIT]);
    let inner = eliminated(random, balance);
    let intervals = inner.into_iter();
    intervals
        .map(|interval| spread(interval, random.magnitude(reach), random.magnitude(reach)))
        .collect()
}

fn point(random: &mut Random) -> Interval {
    let value = random.magnitude(LIMIT);
    Interval::point(random.signed(value))
}

fn points(random: &mut Random, n: usize) -> Vec<Interval> {
    if random.once_in(2) {
        return vec![Interval::point(0); n];
    }
    (0..n).map(|_| point(random)).collect()
}

fn free(random: &mut Random, n: usize) -> Vec<Interval> {
    let reach = random.pick(&[10, 1_000_000, LIMIT]);
    let both = (0..n).map(|_| {
        let (below, above) = (random.magnitude(reach), random.magnitude(reach));
        spread(point(random), below, above)
    });
    both.collect()
}

fn about_the_deliveries(random: &mut Random, balance: &System) -> Vec<Interval> {
    let reach = random.pick(&[1, 100, 1_000_000]);
    let clamped = |interval: Interval| {
        let [lo, hi] = [interval.lo, interval.hi].map(|end| end.clamp(-LIMIT, LIMIT));
        Interval::new(lo, hi)
    };
    let vats = 1..=balance.size();
    vats.map(|i| {
        let (below, above) = (random.magnitude(reach), random.magnitude(reach));
        spread(clamped(balance.f(i)), below, above)
    })
    .collect()
}

/// A box after some sweeps, except that one vat's interval touches it from
/// outside, misses it by a unit or reaches in by some: the vat, or a later
/// one, mostly has an empty intersection.
fn moved_at_one_vat(random: &mut Random, balance: &System) -> Vec<Interval> {
    let n = balance.size();
    let widest = vec![WIDEST; n];
    let allowed = if n > LARGE { 3 } else { 40 };
    let swept = sweeps(balance, widest.clone(), allowed);
    let mut start = swept.bounds().map_or(widest, <[Interval]>::to_vec);
    let vat = random.between(0, n as i64 - 1) as usize;
    let gap = random.pick(&[-1_000, -1, 0, 1, 1, 2, 1_000]);
    let width = random.magnitude(1_000_000);
    let Interval { lo, hi } = start[vat];
    start[vat] = if random.once_in(2) {
        let lo = (hi + gap).clamp(-LIMIT, LIMIT);
        spread(Interval::point(lo), 0, width)
    } else {
        let hi = (lo - gap).clamp(-LIMIT, LIMIT);
        spread(Interval::point(hi), width, 0)
    };
    start
}
