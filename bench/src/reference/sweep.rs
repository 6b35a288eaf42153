//! The sweep call of document 01, with the rows of document 02's A4, and the symmetric
//! one of A5, written from their words alone.

use super::interval::{Interval, WideInterval};
use super::numbers::{DONE, EMPTY, FAULTY_ALLOWANCE, SPENT};
use super::outcome::{Outcome, Stop};
use super::rows::Rounding;
use super::system::{intervals, laid_flat, test_ends, test_lengths, test_size, System};

/// The greatest number of sweeps that may be allowed.
pub const MOST_SWEEPS: usize = 10_000;

/// What a call does again and again, and counts as one sweep.
#[derive(Clone, Copy, Debug, PartialEq, Eq)]
pub enum Pass {
    /// From vat 1 to n.
    There,
    /// And from n to 1 again, as document 02's A5 asks.
    ThereAndBack,
}

impl Pass {
    pub const ALL: [Pass; 2] = [Pass::There, Pass::ThereAndBack];

    /// The call that does it.
    pub fn name(self) -> &'static str {
        match self {
            Pass::There => "sweep",
            Pass::ThereAndBack => "symmetric_sweep",
        }
    }

    /// How often each vat has its turn.
    pub fn turns(self) -> i64 {
        1 + i64::from(self == Pass::ThereAndBack)
    }
}

/// How a sweep call ended. Counts are those of whole sweeps.
#[derive(Clone, Debug, PartialEq, Eq)]
pub enum SweepEnd {
    /// By the test of size, lengths or ends.
    Refused(Stop),
    /// By the test of the sweeps allowed.
    Allowance,
    /// The vat is counted from 1; whether the box was empty on the way back.
    Empty {
        vat: usize,
        back: bool,
        count: u64,
    },
    Settled {
        count: u64,
        bounds: Vec<Interval>,
    },
    Spent {
        count: u64,
        bounds: Vec<Interval>,
    },
}

/// Sweeps x = B·x + b over the start box.
pub fn sweep(
    pass: Pass,
    n: usize,
    b_matrix: &[i64],
    b: &[i64],
    bounds: &mut [i64],
    allowed: usize,
) -> Outcome {
    sweep_end(Rounding::Once, pass, n, [b_matrix, b, bounds], allowed).finish(bounds)
}

/// One call over matrix, right side and start box with all that can be known of it.
pub fn sweep_end(
    rounding: Rounding,
    pass: Pass,
    n: usize,
    lent: [&[i64]; 3],
    allowed: usize,
) -> SweepEnd {
    match read(n, lent, allowed) {
        Ok((balance, start)) => swept(rounding, pass, &balance, start, allowed),
        Err(end) => end,
    }
}

/// Copies the lent numbers once they have passed every test, in the sequence
/// 1, 2, 4, 3.
pub(super) fn read(
    n: usize,
    lent: [&[i64]; 3],
    allowed: usize,
) -> Result<(System, Vec<Interval>), SweepEnd> {
    test_size(n)?;
    test_lengths(n, lent.map(<[i64]>::len))?;
    test_allowed(allowed)?;
    let [matrix, right_side, start] = lent.map(intervals);
    test_ends(matrix.iter().chain(&right_side).chain(&start))?;
    Ok((System::new(n, matrix, right_side), start))
}

pub(super) fn test_allowed(allowed: usize) -> Result<(), SweepEnd> {
    if allowed == 0 || allowed > MOST_SWEEPS {
        Err(SweepEnd::Allowance)
    } else {
        Ok(())
    }
}

/// The ordinary calculation on intervals that have passed every test.
pub fn sweeps(balance: &System, start: Vec<Interval>, allowed: usize) -> SweepEnd {
    swept(Rounding::Once, Pass::There, balance, start, allowed)
}

pub(super) fn swept(
    rounding: Rounding,
    pass: Pass,
    balance: &System,
    start: Vec<Interval>,
    allowed: usize,
) -> SweepEnd {
    let mut x = start;
    let mut whole = 0;
    while whole < allowed {
        let before = x.clone();
        if let Err((vat, back)) = pass_once(rounding, pass, balance, &mut x) {
            let count = whole as u64;
            return SweepEnd::Empty { vat, back, count };
        }
        whole += 1;
        if x == before {
            let count = whole as u64;
            return SweepEnd::Settled { count, bounds: x };
        }
    }
    let count = whole as u64;
    SweepEnd::Spent { count, bounds: x }
}

/// The vat is given back if its intersection is empty, and whether on the way back.
fn pass_once(
    rounding: Rounding,
    pass: Pass,
    balance: &System,
    x: &mut [Interval],
) -> Result<(), (usize, bool)> {
    let vats = 1..=balance.size();
    let there = half_pass(rounding, balance, x, vats.clone());
    there.map_err(|vat| (vat, false))?;
    match pass {
        Pass::There => Ok(()),
        Pass::ThereAndBack => {
            let back = half_pass(rounding, balance, x, vats.rev());
            back.map_err(|vat| (vat, true))
        }
    }
}

/// Every vat meets what `x` holds when its turn comes: the newest boxes, its own too.
pub(super) fn half_pass(
    rounding: Rounding,
    balance: &System,
    x: &mut [Interval],
    vats: impl Iterator<Item = usize>,
) -> Result<(), usize> {
    for i in vats {
        let sum = right_hand(rounding, balance, x, i);
        x[i - 1] = intersection(sum, x[i - 1]).ok_or(i)?;
    }
    Ok(())
}

/// b(i) and all B(i,j)·X(j).
fn right_hand(rounding: Rounding, balance: &System, x: &[Interval], i: usize) -> WideInterval {
    let columns = 1..=balance.size();
    let sum = rounding.sum(columns.map(|j| (balance.a(i, j), x[j - 1])));
    WideInterval::from(balance.f(i)) + sum
}

/// Nothing if the two do not meet. Otherwise both ends lie in the old interval
/// and therefore in the range.
pub(super) fn intersection(sum: WideInterval, old: Interval) -> Option<Interval> {
    let old = WideInterval::from(old);
    let (lo, hi) = (sum.lo.max(old.lo), sum.hi.min(old.hi));
    (lo <= hi).then(|| Interval::new(lo as i64, hi as i64))
}

impl From<Stop> for SweepEnd {
    fn from(stop: Stop) -> SweepEnd {
        SweepEnd::Refused(stop)
    }
}

impl SweepEnd {
    pub fn outcome(&self) -> Outcome {
        match *self {
            SweepEnd::Refused(stop) => stop.into(),
            SweepEnd::Allowance => Outcome::new(FAULTY_ALLOWANCE, 0),
            SweepEnd::Empty { vat, count, .. } => Outcome::counted(EMPTY, vat as u64, count),
            SweepEnd::Settled { count, .. } => Outcome::counted(DONE, 0, count),
            SweepEnd::Spent { count, .. } => Outcome::counted(SPENT, 0, count),
        }
    }

    /// The last box, unless the call was refused.
    pub fn bounds(&self) -> Option<&[Interval]> {
        match self {
            SweepEnd::Settled { bounds, .. } | SweepEnd::Spent { bounds, .. } => Some(bounds),
            _ => None,
        }
    }

    /// Writes the last box over the start box, unless the call was refused.
    pub fn finish(&self, bounds: &mut [i64]) -> Outcome {
        if let Some(last) = self.bounds() {
            bounds.copy_from_slice(&laid_flat(last));
        }
        self.outcome()
    }
}

#[cfg(test)]
mod tests {
    use super::Pass::{There, ThereAndBack};
    use super::*;

    const ONE: i64 = 1_000_000;

    fn outcome(number: u64, place: u64, count: u64) -> Outcome {
        Outcome::counted(number, place, count)
    }

    /// Half of 1 to 3 units is 0 to 2 in whole units outwards, half of what
    /// is left then 0 to 1.
    #[test]
    fn products_are_rounded_outward() {
        let half = [500_000, 500_000];
        let mut bounds = [1, 3];
        let settled = sweep(There, 1, &half, &[0, 0], &mut bounds, 5);
        assert_eq!((settled, bounds), (outcome(0, 0, 3), [1, 1]));
    }

    /// The upper end falls by one unit in each sweep until 999,999.
    #[test]
    fn the_last_sweep_changes_nothing_and_is_counted() {
        let share = [999_999, 999_999];
        let run = |pass, allowed| {
            let mut bounds = [0, ONE + 2];
            let outcome = sweep(pass, 1, &share, &[0, 0], &mut bounds, allowed);
            (outcome, bounds[1])
        };
        assert_eq!(run(There, 1), (outcome(9, 0, 1), ONE + 1));
        assert_eq!(run(There, 3), (outcome(9, 0, 3), ONE - 1));
        assert_eq!(run(There, 4), (outcome(0, 0, 4), ONE - 1));
        assert_eq!(run(There, 10_000), (outcome(0, 0, 4), ONE - 1));
        assert_eq!(run(ThereAndBack, 1), (outcome(9, 0, 1), ONE));
        assert_eq!(run(ThereAndBack, 2), (outcome(9, 0, 2), ONE - 1));
        assert_eq!(run(ThereAndBack, 10_000), (outcome(0, 0, 3), ONE - 1));
    }

    /// From [0, 10] tonnes twice: the first vat gets 3 to 8 and the second 1.5 to 4 on
    /// the way there, the first then 3 to 5 on the way back. The next pass makes it
    /// 1.5 to 2.5 and 3 to 4.25, the third 1.5 to 2.125 and 3 to 4.0625.
    #[test]
    fn the_way_back_meets_the_newest_boxes() {
        let shares = [0, 0, 0, ONE / 2, ONE / 2, ONE / 2, 0, 0];
        let deliveries = [3 * ONE, 3 * ONE, 0, 0];
        let after = |passes| {
            let mut bounds = [0, 10 * ONE, 0, 10 * ONE];
            let end = sweep(ThereAndBack, 2, &shares, &deliveries, &mut bounds, passes);
            assert_eq!(end, outcome(9, 0, passes as u64));
            [bounds[1], bounds[3]]
        };
        assert_eq!(after(1), [5_000_000, 4_000_000]);
        assert_eq!(after(2), [4_250_000, 2_500_000]);
        assert_eq!(after(3), [4_062_500, 2_125_000]);
    }

    /// The lower end rises by one unit in each sweep.
    #[test]
    fn an_empty_intersection_leaves_the_start_box() {
        let one = [ONE, ONE];
        let mut bounds = [0, 2];
        let empty = sweep(There, 1, &one, &[1, 1], &mut bounds, 10);
        assert_eq!((empty, bounds), (outcome(7, 1, 2), [0, 2]));
        let empty = sweep(ThereAndBack, 1, &one, &[1, 1], &mut bounds, 10);
        assert_eq!((empty, bounds), (outcome(7, 1, 1), [0, 2]));
        let spent = sweep(There, 1, &one, &[1, 1], &mut bounds, 2);
        assert_eq!((spent, bounds), (outcome(9, 0, 2), [2, 2]));
    }

    /// Up to 2 units it is empty on the way there, up to 1 or 3 on the way back.
    #[test]
    fn an_empty_intersection_is_found_on_either_way() {
        let found = |upper| {
            let slices: [&[i64]; 3] = [&[ONE, ONE], &[1, 1], &[0, upper]];
            sweep_end(Rounding::Once, ThereAndBack, 1, slices, 10)
        };
        for (upper, back, count) in [(0, false, 0), (1, true, 0), (2, false, 1), (3, true, 1)] {
            let vat = 1;
            assert_eq!(found(upper), SweepEnd::Empty { vat, back, count });
        }
    }

    #[test]
    fn the_sum_has_no_range_test() {
        let far = 2_000 * ONE;
        let mut bounds = [-far, far];
        let settled = sweep(There, 1, &[-far, far], &[far, far], &mut bounds, 1);
        assert_eq!((settled, bounds), (outcome(0, 0, 1), [-far, far]));
        let empty = sweep(There, 1, &[1, 1], &[far, far], &mut [far, far], 1);
        assert_eq!(empty, outcome(7, 1, 0));
    }

    #[test]
    fn tests_run_in_the_sequence_1_2_4_3() {
        let run = |n, ends: &[i64], allowed| {
            let mut bounds = [1, 0];
            let refused = sweep(There, n, ends, &[0, 0], &mut bounds, allowed);
            assert_eq!(bounds, [1, 0]);
            (refused.number, refused.place, refused.count)
        };
        assert_eq!(run(0, &[2, 1, 0], 0), (1, 0, 0));
        assert_eq!(run(1, &[2, 1, 0], 0), (2, 1, 0));
        assert_eq!(run(1, &[2, 1], 0), (4, 0, 0));
        assert_eq!(run(1, &[2, 1], 10_001), (4, 0, 0));
        assert_eq!(run(1, &[2, 1], 1), (3, 0, 0));
        assert_eq!(run(1, &[1, 2], 10_000), (3, 2, 0));
    }
}
