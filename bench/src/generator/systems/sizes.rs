//! Random numbers of equations or vats.

use crate::generator::Random;
use crate::reference::MOST_EQUATIONS;

/// From the least to the greatest of each band.
const BANDS: [(i64, i64); 8] = [
    (1, 1),
    (2, 2),
    (3, 3),
    (4, 4),
    (5, 8),
    (9, 16),
    (17, 31),
    (MOST_EQUATIONS as i64, MOST_EQUATIONS as i64),
];

/// A size of each band in so many of a hundred draws, `most` for a greater one.
pub fn size(random: &mut Random, hundredths: [u64; 8], most: usize) -> usize {
    let mut drawn = random.below(100);
    for ((least, greatest), share) in BANDS.into_iter().zip(hundredths) {
        if drawn < share {
            return (random.between(least, greatest) as usize).min(most);
        }
        drawn -= share;
    }
    panic!("the shares come to less than a hundred");
}
