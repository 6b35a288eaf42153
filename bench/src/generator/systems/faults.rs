//! Cases that fail a test before the calculation.

use crate::case::Case;
use crate::reference::{Interval, System, LIMIT, MOST_EQUATIONS};
use crate::samples::identity;
use std::ops::RangeInclusive;

/// Ends out of sequence or out of the range, in every way.
#[rustfmt::skip]
pub const FAULTY_ENDS: [Interval; 12] = [
    Interval::new(1, 0), Interval::new(LIMIT, -LIMIT), Interval::point(LIMIT + 1),
    Interval::point(-LIMIT - 1), Interval::new(0, LIMIT + 1), Interval::new(-LIMIT - 1, 0),
    Interval::new(i64::MAX, i64::MIN), Interval::new(i64::MIN, i64::MAX), Interval::point(i64::MIN),
    Interval::point(i64::MAX), Interval::point(1 << 32), Interval::new((1 << 32) + 1, 1 << 32),
];

/// Sizes that are refused, each with the size whose slices are lent. Cut to 32
/// bits, or multiplied without room, the far ones would pass for the near.
#[rustfmt::skip]
pub const FAULTY_SIZES: [(usize, usize); 20] = [
    (0, 0), (0, 1), (33, 33), (33, 32), (34, 34), (64, 64), (65, 1), (256, 0), ((1 << 32) + 2, 2),
    ((1 << 32) + 32, 32), (1 << 32, 0), (1 << 32, 1), (1 << 63, 0), ((1 << 63) + 1, 1),
    ((1 << 63) + 2, 2), ((1 << 63) + 32, 32), (usize::MAX - 1, 2), (usize::MAX, 1), (usize::MAX, 0),
    (usize::MAX, 32),
];

/// Sizes at which every wrong length is tried.
const TRIED_SIZES: [usize; 6] = [1, 2, 3, 8, 31, 32];

/// As B, I − B leaves the range in every row.
fn low_shares(n: usize) -> System {
    let mut system = System::noughts(n);
    (1..=n).for_each(|i| system.set_a(i, i, Interval::point(-LIMIT)));
    system
}

/// Lengths around the one that is due.
pub fn lengths_around(due: usize) -> [usize; 8] {
    [
        due,
        due - 1,
        due + 1,
        0,
        due / 2,
        due + 2,
        2 * due,
        due.saturating_sub(2),
    ]
}

/// Cuts the slice, or draws it out with the last of its numbers.
pub fn resize(slice: &mut Vec<i64>, length: usize) {
    let last = slice.last().copied().unwrap_or(0);
    slice.resize(length, last);
}

/// Puts an interval at a position, counted through matrix, right side and box.
pub fn set_interval(case: &mut Case, position: usize, interval: Interval) {
    let mut index = position;
    for slice in [&mut case.matrix, &mut case.right_side, &mut case.bounds] {
        let count = slice.len() / 2;
        if index < count {
            slice[2 * index] = interval.lo;
            slice[2 * index + 1] = interval.hi;
            return;
        }
        index -= count;
    }
    panic!("there is no position {position}");
}

pub fn faulty_sizes() -> impl Iterator<Item = Case> {
    FAULTY_SIZES.into_iter().flat_map(|(n, lent)| {
        [identity(lent), System::noughts(lent), low_shares(lent)].map(|system| Case {
            n,
            ..Case::new(&system)
        })
    })
}

/// Every combination of lengths, over good and over faulty numbers.
pub fn faulty_lengths() -> impl Iterator<Item = Case> {
    TRIED_SIZES.into_iter().flat_map(|n| {
        let good = Case::new(&identity(n));
        let mut faulty = good.clone();
        faulty.matrix.fill(i64::MIN);
        faulty.right_side.fill(i64::MAX);
        let every = (0..512).map(|code| [code % 8, code / 8 % 8, code / 64]);
        let pairs = every.flat_map(move |code| [(good.clone(), code), (faulty.clone(), code)]);
        pairs.map(|(case, code)| with_lengths(case, code))
    })
}

fn with_lengths(mut case: Case, [matrix, right_side, bounds]: [usize; 3]) -> Case {
    let Case { n, .. } = case;
    resize(&mut case.matrix, lengths_around(2 * n * n)[matrix]);
    resize(&mut case.right_side, lengths_around(2 * n)[right_side]);
    resize(&mut case.bounds, lengths_around(2 * n)[bounds]);
    case
}

/// One faulty interval at every position, in a system that is solved without
/// it and in others that the calculation would refuse: as A, noughts have a 0
/// in every pivot.
pub fn faulty_ends(sizes: RangeInclusive<usize>) -> impl Iterator<Item = Case> {
    sizes.flat_map(|n| {
        let kinds = if n <= 4 { FAULTY_ENDS.len() } else { 1 };
        let every = (0..n * n + n).flat_map(move |position| {
            (0..kinds).map(move |kind| (position, FAULTY_ENDS[(position + kind) % 12]))
        });
        every.flat_map(move |(position, interval)| {
            [identity(n), System::noughts(n), low_shares(n)].map(|system| {
                let mut case = Case::new(&system);
                set_interval(&mut case, position, interval);
                case
            })
        })
    })
}

/// Two faulty intervals: every two positions of small sizes, and each position
/// of the greatest size with the last one.
pub fn two_faulty_ends() -> impl Iterator<Item = Case> {
    let small = (1..=3_usize).flat_map(|n| {
        let count = n * n + n;
        (0..count * count).map(move |code| (n, code / count, code % count))
    });
    let n = MOST_EQUATIONS;
    let great = (0..n * n + n).map(move |position| (n, position, n * n + n - 1));
    small.chain(great).map(|(n, first, second)| {
        let mut case = Case::new(&identity(n));
        set_interval(&mut case, first, FAULTY_ENDS[first % 12]);
        set_interval(&mut case, second, FAULTY_ENDS[(second + 5) % 12]);
        case
    })
}

#[cfg(test)]
mod tests {
    use super::*;
    use crate::reference::{Call, Outcome};
    use crate::side::{Reference, Side};

    fn outcome(case: &Case) -> Outcome {
        let answer = case.answer(|n, slices| Reference.eliminate(Call::Eliminate, n, slices));
        answer.outcome
    }

    #[test]
    fn faulty_ends_are_faulty() {
        assert!(FAULTY_ENDS.iter().all(|interval| !interval.is_valid()));
    }

    #[test]
    fn faulty_sizes_are_refused() {
        assert!(faulty_sizes().all(|case| outcome(&case) == Outcome::new(1, 0)));
    }

    #[test]
    fn the_lowest_wrong_length_is_named() {
        for case in faulty_lengths() {
            let due = [2 * case.n * case.n, 2 * case.n, 2 * case.n];
            let given = [case.matrix.len(), case.right_side.len(), case.bounds.len()];
            let wrong = (0..3).find(|place| given[*place] != due[*place]);
            let expected = match wrong {
                Some(place) => Outcome::new(2, place as u64 + 1),
                None if case.matrix[0] == i64::MIN => Outcome::new(3, 0),
                None => Outcome::DONE,
            };
            assert_eq!(outcome(&case), expected);
        }
    }

    #[test]
    fn every_position_is_named() {
        let mut positions = faulty_ends(1..=MOST_EQUATIONS);
        for n in 1..=MOST_EQUATIONS {
            let kinds = if n <= 4 { 36 } else { 3 };
            for position in 0..n * n + n {
                for case in positions.by_ref().take(kinds) {
                    assert_eq!(outcome(&case), Outcome::new(3, position as u64));
                }
            }
        }
        assert_eq!(positions.count(), 0);
    }

    #[test]
    fn the_lower_of_two_positions_is_named() {
        let n = MOST_EQUATIONS;
        let great: Vec<_> = two_faulty_ends().filter(|case| case.n == n).collect();
        assert_eq!(great.len(), n * n + n);
        for (position, case) in great.iter().enumerate() {
            assert_eq!(outcome(case), Outcome::new(3, position as u64));
        }
    }
}
