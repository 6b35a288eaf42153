//! Balances for the start box call.

use super::sweeps::solved;
use super::systems::sizes::size;
use super::systems::spoiling::spoil;
use super::systems::{boxes, faults};
use super::Random;
use crate::case::Case;
use crate::comparison::StartBox;
use crate::reference::{started, sums, Interval, System, LIMIT, MOST_EQUATIONS};
use crate::sweep_list::SweepList;
use std::iter;

const ONE: i64 = 1_000_000;

/// Mostly few vats, as many as can be often enough.
const SIZES: [u64; 8] = [10, 22, 18, 12, 16, 10, 7, 5];

/// First every fault, then random balances of at most so many vats without end,
/// always the same for the same seed.
pub fn starts_up_to(most: usize, seed: u64) -> impl Iterator<Item = StartBox> {
    let faulty = faults::faulty_sizes()
        .chain(faults::faulty_lengths())
        .chain(faults::faulty_ends(1..=MOST_EQUATIONS))
        .chain(faults::two_faulty_ends());
    let faulty = faulty.map(|case| SweepList::new(case, &[]));
    let mut random = Random::new(seed);
    let drawn = iter::repeat_with(move || drawn(&mut random, most));
    faulty.chain(drawn).enumerate().map(|(index, mut list)| {
        list.lent.bounds = boxes::content(index, list.lent.bounds.len());
        StartBox(list)
    })
}

fn drawn(random: &mut Random, most: usize) -> SweepList {
    let n = size(random, SIZES, most);
    let mut list = match random.below(6) {
        0 => solved::list(random, n),
        _ => SweepList::new(Case::new(&free(random, n)), &[]),
    };
    if random.once_in(10) {
        spoil(random, &mut list.lent, 2);
        list.solution = None;
    }
    list
}

/// An interval of at most this magnitude, by either end.
fn interval(random: &mut Random, cap: i64) -> Interval {
    let magnitudes = [random.between(0, cap), random.magnitude(cap), cap];
    let magnitude = random.pick(&magnitudes);
    let within = random.between(0, magnitude);
    let within = random.signed(within);
    match random.below(4) {
        0 => Interval::point(random.signed(magnitude)),
        1 => Interval::new(within, magnitude),
        _ => Interval::new(-magnitude, within),
    }
}

/// All sums are below one, unless there is a row with more, which leaves the columns
/// below one, a column with more, or both.
fn free(random: &mut Random, n: usize) -> System {
    let mut line = || (n > 1 && random.once_in(2)).then(|| random.between(1, n as i64) as usize);
    let (row, column) = (line(), line());
    let whole = row.or(column).map_or(ONE - 1, |_| 90_000);
    let mut balance = System::noughts(n);
    let reach = random.pick(&[0, 10, ONE, 100 * ONE, LIMIT]);
    for i in 1..=n {
        for j in 1..=n {
            let more = row == Some(i) || column == Some(j);
            let cap = if more { 900_000 } else { whole / n as i64 };
            balance.set_a(i, j, interval(random, cap));
        }
        balance.set_f(i, interval(random, reach));
    }
    match random.below(4) {
        0 => steer_sum(random, &mut balance),
        1 => steer_end(random, &mut balance),
        _ => (),
    }
    balance
}

/// Gives one share the magnitude with which its row or column comes to one, or to a
/// unit or two off it.
fn steer_sum(random: &mut Random, balance: &mut System) {
    let [i, j] = [(); 2].map(|_| random.between(1, balance.size() as i64) as usize);
    balance.set_a(i, j, Interval::point(0));
    let [rows, columns] = sums(balance);
    let others = random.pick(&[rows[i - 1], columns[j - 1]]) as i64;
    let magnitude = (ONE + random.pick(&[-2, -1, -1, 0, 0, 1]) - others).max(0);
    let ends = [Interval::point(magnitude), Interval::new(-magnitude, 0)];
    balance.set_a(i, j, random.pick(&ends));
}

/// Moves one delivery so that an end of the box comes to the limit or a unit off it.
/// Nothing is given on by that vat, so that the reach stays.
fn steer_end(random: &mut Random, balance: &mut System) {
    let vat = random.between(1, balance.size() as i64) as usize;
    (1..=balance.size()).for_each(|i| balance.set_a(i, vat, Interval::point(0)));
    balance.set_f(vat, Interval::point(0));
    if let Ok((_, start)) = started(balance) {
        let delivery = LIMIT - start[vat - 1].hi + random.pick(&[-1, 0, 1]);
        let delivery = random.signed(delivery.min(LIMIT));
        balance.set_f(vat, Interval::point(delivery));
    }
}
