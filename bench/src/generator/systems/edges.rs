//! The edge cases of a call, always the same.

use super::balance::balance_of;
use super::spots::{spots, Spot};
use super::{boxes, faults, small};
use crate::case::Case;
use crate::case_file::Entry;
use crate::generator::rows;
use crate::reference::{Call, Interval, System, MOST_EQUATIONS};
use crate::samples::{self, identity};
use std::ops::RangeInclusive;

/// Up to this size every spot is planted.
const FEW: usize = 8;

/// Sizes at which every two spots are planted together.
const SIZES_OF_PAIRS: [usize; 3] = [2, 3, 4];

/// Every edge case, those that take long last.
pub fn edge_cases(call: Call) -> impl Iterator<Item = Case> {
    let faulty = faults::faulty_sizes()
        .chain(faults::faulty_lengths())
        .chain(faults::faulty_ends(1..=FEW))
        .chain(faults::two_faulty_ends());
    let small = small::awkward_numbers()
        .chain(single_spots(1..=FEW))
        .chain(pairs_of_spots())
        .chain(rotated())
        .chain(rows::carries().map(|balance| balance_of(&balance)));
    let native = small::two_equations().map(|system| Case::new(&system));
    let great = single_spots(FEW + 1..=MOST_EQUATIONS);
    let cases = sampled(call)
        .chain(faulty)
        .chain(small.map(move |system| in_the_form_of(call, &system)))
        .chain(small::one_equation())
        .chain(native)
        .chain(faults::faulty_ends(FEW + 1..=MOST_EQUATIONS))
        .chain(great.map(move |system| in_the_form_of(call, &system)));
    cases.enumerate().map(|(index, case)| Case {
        bounds: boxes::content(index, case.bounds.len()),
        ..case
    })
}

/// The samples of this call, and those of the other one in this call's form.
fn sampled(call: Call) -> impl Iterator<Item = Case> {
    let samples = samples::system_calls().into_iter();
    let native = samples.filter(move |(of, _)| *of == Entry::Eliminate(call));
    let formed = samples::three_equations().map(move |system| in_the_form_of(call, &system));
    native.map(|(_, lent)| lent).chain(formed)
}

/// A·x = f as it stands, or as its balance.
fn in_the_form_of(call: Call, system: &System) -> Case {
    match call {
        Call::Eliminate => Case::new(system),
        Call::EliminateBalance => Case::new(&balance_of(system)),
    }
}

fn planted(n: usize, spots: &[&Spot]) -> System {
    let mut system = identity(n);
    spots.iter().for_each(|spot| spot.plant(&mut system));
    system
}

/// Each row one place too early, so that every step but the last swaps rows. The entry
/// of the last column is one, or nought, or too small for its right side.
fn rotated() -> impl Iterator<Item = System> {
    let every = (2..=MOST_EQUATIONS).flat_map(|n| [1_000_000, 0, 100].map(|last| (n, last)));
    every.map(|(n, last)| {
        let mut system = identity(n);
        (1..n).for_each(|i| system.exchange_rows(i, i + 1));
        system.set_a(n - 1, n, Interval::point(last));
        system
    })
}

/// All of them in the greatest systems and in small ones, some in the others.
fn single_spots(sizes: RangeInclusive<usize>) -> impl Iterator<Item = System> {
    sizes.flat_map(|n| {
        let middle = FEW < n && n < MOST_EQUATIONS;
        let stride = if middle { 11 } else { 1 };
        let spots = spots(n).into_iter().step_by(stride);
        spots.map(move |spot| planted(n, &[&spot]))
    })
}

/// Two failing places at once: the first of them in the sequence decides.
fn pairs_of_spots() -> impl Iterator<Item = System> {
    SIZES_OF_PAIRS.into_iter().flat_map(|n| {
        let spots = spots(n);
        let count = spots.len();
        let pairs = (0..count * count).map(move |code| (code / count, code % count));
        pairs.map(move |(first, second)| planted(n, &[&spots[first], &spots[second]]))
    })
}
