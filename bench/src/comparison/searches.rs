//! Comparing searches for a byte.

use super::{Tally, Trial};
use crate::side::{Reference, Side};

/// The greatest length that is tried: eight words.
pub const LONGEST: usize = 64;

const WORD: usize = 8;

/// What a slice lies in: a word before it, and at least two beyond it. It begins
/// where a word does, so that the slice's place tells how it is aligned.
#[repr(align(8))]
#[derive(Clone, Copy, Debug, PartialEq, Eq)]
pub struct Memory(pub [u8; Memory::SIZE]);

/// A search in a slice of the memory.
#[derive(Clone, Copy, Debug, PartialEq, Eq)]
pub struct Search {
    pub memory: Memory,
    /// By so many bytes the slice begins behind a word's beginning.
    pub offset: usize,
    pub length: usize,
    pub from: usize,
    pub sought: u8,
}

impl Memory {
    pub const SIZE: usize = LONGEST + 4 * WORD;

    pub fn slice(&mut self, offset: usize, length: usize) -> &mut [u8] {
        &mut self.0[WORD + offset..][..length]
    }
}

impl Trial for Search {
    fn compare(&self, side: &impl Side, tally: &mut Tally) -> Result<(), String> {
        let (expected, _) = self.answer(&Reference);
        let (given, left) = self.answer(side);
        if expected != given || left != self.memory {
            return Err(self.difference(expected, given, &left));
        }
        // The call has no number: every answer is counted as 0.
        tally.count(0);
        self.reach(tally, expected);
        Ok(())
    }
}

impl Search {
    /// The bytes that are searched.
    pub fn bytes(&self) -> Vec<u8> {
        { self.memory }.slice(self.offset, self.length).to_vec()
    }

    /// The place, and the memory as the call left it.
    fn answer(&self, side: &impl Side) -> (usize, Memory) {
        let mut memory = self.memory;
        let bytes = memory.slice(self.offset, self.length);
        (side.first_byte(bytes, self.from, self.sought), memory)
    }

    fn difference(&self, expected: usize, given: usize, left: &Memory) -> String {
        let (sought, from, length) = (self.sought, self.from, self.length);
        let begin = WORD + self.offset;
        format!(
            "difference in first_byte of {sought:#04x} from {from} on, in {length} bytes from {begin} \
             of the memory on:\n  reference: {expected}\n  archive:   {given}\n  \
             memory:    {:02x?}\n  left:      {:02x?}",
            self.memory.0, left.0
        )
    }

    fn reach(&self, tally: &mut Tally, place: usize) {
        let bytes = self.bytes();
        let (passed, found) = bytes.split_at(place);
        let passed = &passed[self.from.min(self.length)..];
        let [length, offset, near] = match found {
            [_, ..] => ["found, length", "found, offset", "found, off in bit"],
            [] => ["none, length", "none, offset", "none, off in bit"],
        };
        tally.reach(length, self.length);
        tally.reach(offset, self.offset);
        for bit in (0..8).filter(|bit| passed.contains(&(self.sought ^ (1 << bit)))) {
            tally.reach(near, bit);
        }
        match found {
            [_, after @ ..] => self.reach_found(tally, place, after),
            [] => self.reach_none(tally, &bytes),
        }
    }

    fn reach_found(&self, tally: &mut Tally, place: usize, after: &[u8]) {
        tally.reach("found, byte", self.sought.into());
        tally.reach("found, place", place);
        let in_words = (self.length - self.from) / WORD * WORD;
        match place - self.from {
            passed if passed < in_words => tally.reach("found in a word, at", passed % WORD),
            passed => tally.reach("found in the tail, at", passed - in_words),
        }
        let next = after.first().map(|next| next.wrapping_sub(self.sought));
        if let Some(more @ 0..=2) = next.map(|more| more.wrapping_add(1)) {
            tally.reach("found before one off by -1, 0, 1", more.into());
        }
    }

    fn reach_none(&self, tally: &mut Tally, bytes: &[u8]) {
        match self.from.checked_sub(self.length) {
            Some(past) => tally.reach("none, past the end by 0, 1, more", past.min(2)),
            None if bytes.contains(&self.sought) => tally.reach("none but before the start", 0),
            None => (),
        }
        let beyond = &self.memory.0[WORD + self.offset + self.length..];
        for past in (0..2).filter(|past| beyond[*past] == self.sought) {
            tally.reach("none but behind the end, at", past);
        }
    }
}
