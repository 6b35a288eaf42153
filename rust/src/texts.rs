//! The report call.

use crate::raw::kifwaleb_report;
use crate::Outcome;

/// A report call's end, with the count of bytes written.
///
/// ```
/// use kifwaleb::{report, Outcome, Refusal, Written};
/// let refused = Outcome::Refused(Refusal::Length(3));
/// let nothing = Written { outcome: refused, count: 0 };
/// assert_eq!(report(b"V1\n0:0\n5:5\n", &mut [0; 100]), nothing);
/// ```
#[derive(Clone, Copy, Debug, PartialEq, Eq)]
pub struct Written {
    /// How the call ended.
    pub outcome: Outcome,
    /// The bytes of the sheet, at the beginning of what was lent; 0 with a
    /// refusal.
    pub count: usize,
}

/// Writes the sheet of a cellar text to the beginning of `out`, as the program
/// `balance` prints it, if its bounds are settled (`Done`) or the sweeps spent
/// (`Spent`); what lies past it stays as it was. A refusal changes nothing: the
/// text is faulty (`Text` with the line), `out` has not
/// [`SHEET_LENGTH`](crate::SHEET_LENGTH) bytes (`Length(3)`), or the calculation
/// refuses, whichever comes first in this sequence.
///
/// ```
/// use kifwaleb::{report, Outcome, Refusal, SHEET_LENGTH};
/// let mut sheet = [0; SHEET_LENGTH];
/// let written = report(b"V1\n500000:500000\n-3:1\n", &mut sheet);
/// assert_eq!(written.outcome, Outcome::Done);
/// assert_eq!(&sheet[..written.count], b"V1\n-6:2\nsettled 1\n");
/// let refused = report(b"V1\n1000000:1000000\n5:5\n", &mut sheet).outcome;
/// assert_eq!(refused, Outcome::Refused(Refusal::ContainsZero(1)));
/// let faulty = report(b"V1\n0:0\n5.0:5\n", &mut sheet).outcome;
/// assert_eq!(faulty, Outcome::Refused(Refusal::Text(3)));
/// ```
pub fn report(text: &[u8], out: &mut [u8]) -> Written {
    // SAFETY: each pointer comes with the length of its slice, the text shares
    // no memory with `out`, and any bytes are accepted.
    let given = unsafe { kifwaleb_report(text.as_ptr(), text.len(), out.as_mut_ptr(), out.len()) };
    Written {
        outcome: given.into(),
        count: given.count as usize,
    }
}
