//! Texts that were damaged in one place.

use std::ops::Range;

/// Bytes that a damaged place may hold: all that mean something in a text, the
/// neighbours of their kinds, blanks and bytes that are no characters.
pub const BYTES: [u8; 32] = [
    b';', b':', b'-', b'+', b'0', b'1', b'9', b'/', b',', b'.', b'A', b'Z', b'a', b'z', b'@', b'[',
    b'`', b'{', b'_', b' ', b'\t', 10, 11, 13, 0, 1, 26, 31, 127, 128, 176, 255,
];

/// Every byte of a part of the text changed to every one of `BYTES`.
pub fn changes(text: &[u8], part: Range<usize>) -> impl Iterator<Item = Vec<u8>> + '_ {
    part.flat_map(move |place| {
        let others = BYTES.into_iter().filter(move |byte| *byte != text[place]);
        others.map(move |byte| changed(text, place, byte))
    })
}

fn changed(text: &[u8], place: usize, byte: u8) -> Vec<u8> {
    let mut text = text.to_vec();
    text[place] = byte;
    text
}

/// A place's byte dropped or doubled, or some byte set before it.
pub fn shifts(text: &[u8], part: Range<usize>) -> impl Iterator<Item = Vec<u8>> + '_ {
    part.flat_map(move |place| {
        let (before, after) = text.split_at(place);
        let dropped = [before, &after[1..]].concat();
        let doubled = [before, &after[..1], after].concat();
        let inserted = [b'0', b'-', b';', b' ', b'\r', b'\n', b'Q'];
        let inserted = inserted.map(|byte| [before, &[byte], after].concat());
        [dropped, doubled].into_iter().chain(inserted)
    })
}

/// Cut at every length.
pub fn cuts(text: &[u8]) -> impl Iterator<Item = Vec<u8>> + '_ {
    (0..text.len()).map(|length| text[..length].to_vec())
}

/// With bytes after the end.
pub fn tails(text: &[u8]) -> impl Iterator<Item = Vec<u8>> + '_ {
    TAILS.iter().map(move |tail| [text, tail].concat())
}

#[rustfmt::skip]
pub const TAILS: [&[u8]; 12] = [
    b"\n", b"\r", b"\r\n", b"\0", b" ", b"\x1a", b"0", b"0:0", b"0:0\n", b"0:0;0:0\n", b"\n\n\n",
    b"settled 1\n",
];

/// The lines of a text, each with its end.
pub fn lines(text: &[u8]) -> Vec<&[u8]> {
    text.split_inclusive(|byte| *byte == b'\n').collect()
}

/// A line dropped, doubled, emptied, or in the place of another.
pub fn moved_lines(text: &[u8]) -> impl Iterator<Item = Vec<u8>> + '_ {
    let lines = lines(text);
    (0..lines.len()).flat_map(move |place| {
        let (before, after) = lines.split_at(place);
        let dropped = [before, &after[1..]].concat().concat();
        let doubled = [before, &after[..1], after].concat().concat();
        let emptied = [before, &[b"\n"], &after[1..]].concat().concat();
        let swaps = (place + 1..lines.len()).map(|other| {
            let mut lines = lines.clone();
            lines.swap(place, other);
            lines.concat()
        });
        let mut all = vec![dropped, doubled, emptied];
        all.extend(swaps);
        all
    })
}

/// Every line end changed: as other systems write them.
pub fn other_ends(text: &[u8]) -> impl Iterator<Item = Vec<u8>> {
    let lines: Vec<_> = text.split(|byte| *byte == b'\n').collect();
    [&b"\r\n"[..], b"\r", b"\n\r", b"\0", b"\n\n"]
        .map(|end| lines.join(end))
        .into_iter()
}
