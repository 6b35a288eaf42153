//! The choice between two boxes of document 02, A2.

use super::system::{intervals, test_ends, test_size};

/// The one with the smaller sum of widths, the first at a tie.
pub fn narrower<'a>(n: usize, first: &'a [i64], second: &'a [i64]) -> &'a [i64] {
    match [first, second].map(|numbers| width(n, numbers)) {
        [None, None] => &first[..0],
        [Some(one), Some(other)] if one <= other => first,
        [Some(_), None] => first,
        [_, Some(_)] => second,
    }
}

/// The sum of widths; nothing of a box that fails the tests 1, 2 or 3.
pub fn width(n: usize, numbers: &[i64]) -> Option<i128> {
    test_size(n).ok()?;
    let all = intervals(numbers);
    test_ends(all.iter()).ok()?;
    let widths = all.iter().map(|i| i128::from(i.hi) - i128::from(i.lo));
    (numbers.len() == 2 * n).then(|| widths.sum())
}

#[cfg(test)]
mod tests {
    use super::*;

    #[test]
    fn the_smaller_sum_of_widths_is_chosen() {
        let [first, narrow, tie, wide] =
            [[0, 9, 0, 9], [0, 1, 0, 16], [0, 18, 5, 5], [0, 19, 5, 5]];
        assert_eq!(narrower(2, &first, &narrow), narrow);
        assert_eq!(narrower(2, &first, &tie), first);
        assert_eq!(narrower(2, &first, &wide), first);
    }

    #[test]
    fn what_is_no_box_is_wider_than_any() {
        let widest = [-2_000_000_000, 2_000_000_000];
        for faulty in [&[][..], &[1], &[0, 0, 0], &[1, 0], &[0, 2_000_000_001]] {
            assert_eq!(narrower(1, faulty, &widest), widest);
            assert_eq!(narrower(1, &widest, faulty), widest);
            assert_eq!(narrower(1, faulty, &[2, 1]), [0; 0]);
        }
        assert_eq!(narrower(33, &[0; 66], &[0; 66]), [0; 0]);
    }
}
