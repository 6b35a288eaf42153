//! The choice between two boxes.

use crate::raw::kifwaleb_narrower;

/// Hands back the one of two boxes of n vats with the smaller sum of widths,
/// itself and no copy; the first if the sums are equal. What is no box is wider
/// than any: if n is 0 or above 32, the length is not 2·n, or an interval has its
/// ends out of sequence or out of the range. Two such give an empty part of the
/// first.
///
/// ```
/// use kifwaleb::narrower;
/// let (wide, narrow, crossed) = ([0, 10, 0, 10], [2, 9, -3, 4], [0, 10, 1, 0]);
/// assert!(std::ptr::eq(narrower(2, &wide, &narrow), &narrow));
/// assert!(std::ptr::eq(narrower(2, &wide, &crossed), &wide));
/// assert!(narrower(2, &crossed, &narrow[..2]).is_empty());
/// ```
pub fn narrower<'a>(n: usize, first: &'a [i64], second: &'a [i64]) -> &'a [i64] {
    let [lent, further] = [first, second].map(|numbers| (numbers.as_ptr(), numbers.len()));
    // SAFETY: each pointer comes with the length of its slice, both are only read,
    // and any numbers are accepted.
    match unsafe { kifwaleb_narrower(n, lent.0, lent.1, further.0, further.1) } {
        0 => &first[..0],
        1 => first,
        2 => second,
        number => panic!("the archive returned {number} for two boxes"),
    }
}
