//! Pairs of boxes to choose from.

use super::systems::faults::{lengths_around, resize, FAULTY_ENDS, FAULTY_SIZES};
use super::systems::sizes::size;
use super::Random;
use crate::comparison::Boxes;
use crate::reference::{Interval, LIMIT};
use std::iter;

/// Every size often enough to tie, win and lose.
const SIZES: [u64; 8] = [10, 14, 10, 10, 16, 16, 16, 8];

/// Without end, at most so many vats, always the same for the same seed.
pub fn boxes_up_to(most: usize, seed: u64) -> impl Iterator<Item = Boxes> {
    let mut random = Random::new(seed);
    iter::repeat_with(move || drawn(&mut random, most))
}

fn drawn(random: &mut Random, most: usize) -> Boxes {
    let mut n = size(random, SIZES, most);
    let mut first = drawn_box(random, n);
    let mut second = match random.below(2) {
        0 => drawn_box(random, n),
        _ => first.clone(),
    };
    move_width(random, &mut second);
    for numbers in [&mut first, &mut second] {
        if random.once_in(8) {
            spoil(random, numbers);
        }
    }
    if random.once_in(16) {
        n = random.pick(&FAULTY_SIZES).0;
    }
    Boxes { n, first, second }
}

/// Every interval reaches from below 0 to above it.
fn drawn_box(random: &mut Random, n: usize) -> Vec<i64> {
    let reach = random.pick(&[1, 1_000, LIMIT]);
    let mut end = || random.magnitude(reach);
    (0..n).flat_map(|_| [-end(), end()]).collect()
}

/// Takes some of the width of one vat and gives as much to another, or a unit more or
/// less.
fn move_width(random: &mut Random, numbers: &mut [i64]) {
    let [from, to] = [(); 2].map(|_| 2 * random.below(numbers.len() as u64 / 2) as usize);
    let width = random.magnitude(numbers[from + 1]);
    let given = width + random.pick(&[0, 0, 1, -1]);
    if numbers[to] - given >= -LIMIT {
        numbers[from + 1] -= width;
        numbers[to] -= given;
    }
}

fn spoil(random: &mut Random, numbers: &mut Vec<i64>) {
    if random.once_in(2) {
        let length = random.pick(&lengths_around(numbers.len()));
        resize(numbers, length);
    } else {
        let vat = random.below(numbers.len() as u64 / 2) as usize;
        let Interval { lo, hi } = random.pick(&FAULTY_ENDS);
        numbers[2 * vat..][..2].copy_from_slice(&[lo, hi]);
    }
}
