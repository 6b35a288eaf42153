//! Texts around the greatest length, and too many names.

use super::draft::Draft;
use crate::case::Case;
use crate::reference::{System, MOST_BYTES};
use crate::samples::INPUT;

/// Lengths around the limit; cut to 16 bits, the far ones would pass for short.
#[rustfmt::skip]
const LENGTHS: [usize; 8] = [
    MOST_BYTES - 1, MOST_BYTES, MOST_BYTES + 1, MOST_BYTES + 2, MOST_BYTES + INPUT.len(),
    MOST_BYTES + 4_096, 2 * MOST_BYTES, 3 * MOST_BYTES + INPUT.len(),
];

/// What the rest of a long text is filled with.
pub const FILLERS: [u8; 6] = [b'\n', b'0', b';', b'a', 0, b' '];

/// A text drawn out to a length.
pub fn filled(text: &[u8], length: usize, filler: u8) -> Vec<u8> {
    let mut text = text.to_vec();
    text.resize(length, filler);
    text
}

/// Starts of a text whose first fault is on each of its lines, drawn out.
pub fn long_texts() -> impl Iterator<Item = Vec<u8>> {
    let lines = super::damage::lines(INPUT);
    let starts = (0..=lines.len()).map(move |count| lines[..count].concat());
    let faulty = [&b";\n"[..], b"a;a\n", b"V1\n0:00\n"].map(<[u8]>::to_vec);
    starts.chain(faulty).flat_map(|start| {
        LENGTHS.into_iter().flat_map(move |length| {
            let start = start.clone();
            FILLERS.map(|filler| filled(&start, length, filler))
        })
    })
}

/// So many vats without shares, 33 and more too.
pub fn many_vats() -> impl Iterator<Item = Vec<u8>> {
    [30, 31, 32, 33, 34, 35, 40, 64, 65]
        .into_iter()
        .flat_map(|n| {
            let whole = vats(n);
            // Too many names over the lines of 32 vats.
            let mut short = vats(n.min(32));
            short.lines[0] = whole.lines[0].clone();
            [whole, short].map(|draft| draft.written())
        })
}

pub fn vats(n: usize) -> Draft {
    let names = (1..=n).map(|i| format!("v{i}").into_bytes()).collect();
    Draft::new(names, &Case::new(&System::noughts(n)))
}
