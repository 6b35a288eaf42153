//! Values at which a step may change its answer, and all their pairs.

use crate::reference::{Interval, LIMIT};

/// Magnitudes within the range: small counts, the neighbours of one, the
/// limits. 1,000,001 times 1,999,998,000 is below 2000 and times 1,999,998,001
/// above it, each by less than a unit; 2,000 over 1 unit is 2000 and 2,001
/// over 1 unit is above it.
#[rustfmt::skip]
const INSIDE: [i64; 17] = [
    1, 2, 3, 999, 1_000, 2_000, 2_001, 500_000, 999_999, 1_000_000, 1_000_001, 3_000_000,
    1_999_998_000, 1_999_998_001, 1_999_999_999, LIMIT - 2, LIMIT,
];

/// Values outside the range: its neighbours, values that would pass for small
/// ones if cut to 32 bits, and the last ones of 64 bits, whose negatives and
/// differences do not fit.
#[rustfmt::skip]
const OUTSIDE: [i64; 12] = [
    LIMIT + 1, -LIMIT - 1, i32::MAX as i64 + 1, i32::MIN as i64, 1 << 32, -(1 << 32),
    (1 << 32) + 1_000_000, i64::MAX - 1, i64::MAX, i64::MIN, i64::MIN + 1, i64::MIN + 1_000_000,
];

/// 0 and both signs of `INSIDE`.
pub fn inside_values() -> Vec<i64> {
    let negative = INSIDE.iter().map(|value| -value);
    INSIDE.iter().copied().chain(negative).chain([0]).collect()
}

pub fn outside_values() -> &'static [i64] {
    &OUTSIDE
}

/// Every pair of edge values as ends, those out of sequence too.
fn edge_intervals() -> Vec<Interval> {
    let mut values = inside_values();
    values.extend(OUTSIDE);
    let ends = |lo: i64| values.iter().map(move |hi| Interval::new(lo, *hi));
    values.iter().flat_map(|lo| ends(*lo)).collect()
}

/// Every pair of edge intervals.
pub fn edge_pairs() -> impl Iterator<Item = (Interval, Interval)> {
    let intervals = edge_intervals();
    let count = intervals.len();
    (0..count * count).map(move |index| (intervals[index / count], intervals[index % count]))
}
