//! What one report call is lent, and what it leaves behind.

use crate::guarded::Guarded;
use crate::reference::{Outcome, SHEET_LENGTH};

#[derive(Clone, Debug, PartialEq, Eq)]
pub struct TextCase {
    pub text: Vec<u8>,
    /// The lent sheet. Its length need not be right.
    pub out: Vec<u8>,
}

/// What a call returned and left in the two slices.
#[derive(Clone, Debug, PartialEq, Eq)]
pub struct TextAnswer {
    pub outcome: Outcome,
    pub text: Guarded<u8>,
    pub out: Guarded<u8>,
}

impl TextCase {
    /// With a sheet of the right length.
    pub fn new(text: Vec<u8>) -> TextCase {
        let out = vec![0xff; SHEET_LENGTH];
        TextCase { text, out }
    }

    /// Lends copies to `call` and collects what it leaves behind. The text can
    /// be altered only so that a forbidden change is seen.
    pub fn answer(&self, call: impl FnOnce(&mut [u8], &mut [u8]) -> Outcome) -> TextAnswer {
        let mut text = Guarded::new(&self.text);
        let mut out = Guarded::new(&self.out);
        let outcome = call(text.lent(), out.lent());
        TextAnswer { outcome, text, out }
    }
}
