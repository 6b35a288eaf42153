//! What a lent box may hold: anything, since no elimination reads it.

use crate::generator::Random;
use crate::reference::LIMIT;

const KINDS: usize = 8;

/// The content number `kind`, taken round.
pub fn content(kind: usize, length: usize) -> Vec<i64> {
    let ends = match kind % KINDS {
        0 => [0, 0],
        1 => [-1, 1],
        2 => [5, -5],
        3 => [i64::MIN, i64::MIN],
        4 => [i64::MAX, i64::MAX],
        5 => [i64::MAX, i64::MIN],
        6 => [-LIMIT, LIMIT],
        _ => [LIMIT + 1, LIMIT + 1],
    };
    ends.into_iter().cycle().take(length).collect()
}

/// One of the contents, or numbers by chance.
pub fn random_content(random: &mut Random, length: usize) -> Vec<i64> {
    if random.once_in(2) {
        (0..length).map(|_| random.bits() as i64).collect()
    } else {
        content(random.below(KINDS as u64) as usize, length)
    }
}
