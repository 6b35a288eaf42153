//! Random faults for the tests before a calculation.

use super::faults::{lengths_around, resize, set_interval, FAULTY_ENDS, FAULTY_SIZES};
use crate::case::Case;
use crate::generator::Random;

/// Mostly makes a case fail a test before the calculation, often several. The
/// ends of the first so many slices are tested.
pub fn spoil(random: &mut Random, case: &mut Case, slices: usize) {
    match random.below(8) {
        0 => case.n = random.pick(&FAULTY_SIZES).0,
        // One more or less than the slices hold.
        1 => case.n = random.pick(&[case.n - 1, case.n + 1]),
        2 | 3 => spoil_lengths(random, case),
        4 => {
            spoil_ends(random, case, slices);
            spoil_lengths(random, case);
        }
        _ => spoil_ends(random, case, slices),
    }
}

fn spoil_lengths(random: &mut Random, case: &mut Case) {
    for slice in [&mut case.matrix, &mut case.right_side, &mut case.bounds] {
        if random.once_in(2) {
            let length = random.pick(&lengths_around(slice.len()));
            resize(slice, length);
        }
    }
}

/// In each of the slices about as often.
fn spoil_ends(random: &mut Random, case: &mut Case, slices: usize) {
    let n = case.n as i64;
    let starts = [0, n * n, n * n + n, n * n + 2 * n];
    for _ in 0..random.between(1, 3) {
        let first = random.pick(&starts[..slices]);
        let position = random.between(first, starts[slices] - 1);
        let interval = random.pick(&FAULTY_ENDS);
        set_interval(case, position as usize, interval);
    }
}
