//! What a lent sheet may hold: anything, since no call reads it.

use crate::generator::Random;
use crate::reference::SHEET_LENGTH;

/// Lengths that are refused; cut to 16 bits, the last would pass.
#[rustfmt::skip]
pub const FAULTY_LENGTHS: [usize; 14] = [
    0, 1, 12, 50, 1_023, 1_024, 2_046, 2_047, 2_049, 2_050, 4_095, 4_096, 8_192,
    65_536 + SHEET_LENGTH,
];

const FILLERS: [u8; 6] = [0xff, 0, b'\n', b'0', b' ', b'd'];

/// The content number `kind`, taken round.
pub fn content(kind: usize, length: usize) -> Vec<u8> {
    vec![FILLERS[kind % FILLERS.len()]; length]
}

/// One of the contents, or bytes by chance.
pub fn random_content(random: &mut Random, length: usize) -> Vec<u8> {
    if random.once_in(2) {
        let words = (0..length.div_ceil(8)).flat_map(|_| random.bits().to_le_bytes());
        words.take(length).collect()
    } else {
        content(random.below(FILLERS.len() as u64) as usize, length)
    }
}
