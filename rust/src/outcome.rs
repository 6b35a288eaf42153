//! How a call ended, by name.

use crate::raw::KifwalebOutcome;

/// How a call ended.
///
/// ```
/// use kifwaleb::{eliminate, Outcome, Refusal};
/// let mut bounds = [7, 7];
/// let outcome = eliminate(1, &[0, 1], &[5, 5], &mut bounds);
/// match outcome {
///     Outcome::Done | Outcome::Spent => unreachable!("the pivot contains 0"),
///     Outcome::Refused(refusal) => assert_eq!(refusal, Refusal::ContainsZero(1)),
/// }
/// assert_eq!(bounds, [7, 7]);
/// ```
#[derive(Clone, Copy, Debug, PartialEq, Eq)]
pub enum Outcome {
    /// Done, or settled; the result is written.
    Done,
    /// The last sweep allowed still changed the box, which is written.
    Spent,
    /// Nothing that was lent has changed.
    Refused(Refusal),
}

/// Why a call was refused, with the place of the fault.
///
/// ```
/// use kifwaleb::{sweep, Outcome, Refusal};
/// let refusal = |allowed| match sweep(1, &[0, 0], &[2, 1], &mut [0, 9], allowed).outcome {
///     Outcome::Refused(refusal) => refusal,
///     _ => unreachable!("the right side is no interval"),
/// };
/// assert_eq!(refusal(1), Refusal::Ends(1));
/// assert_eq!(refusal(0), Refusal::Allowed);
/// ```
#[derive(Clone, Copy, Debug, PartialEq, Eq)]
pub enum Refusal {
    /// The number of vats is 0 or above 32.
    Size,
    /// This slice has the wrong length: 1 the matrix, or a list of more than 1,024
    /// transfers, 2 the right side, 3 the box or the sheet.
    Length(usize),
    /// This interval has its ends out of sequence or out of the range, counted
    /// from 0 through matrix or list, right side and start box; 0 for a weighed one.
    Ends(usize),
    /// The sweeps allowed are 0 or above 10,000.
    Allowed,
    /// In this step no row can serve: each from it on contains 0 in its column.
    ContainsZero(usize),
    /// A result of this row, by its place after the swaps so far, is out of the range;
    /// 0 for a start box.
    OutOfRange(usize),
    /// The start box, or the box of half rows, holds no solution, or none within a
    /// weighed interval, as was found at this vat.
    Empty(usize),
    /// The text is not as described: its first faulty line, or 0 if it is too
    /// long.
    Text(usize),
    /// For a start box: neither are all row sums of the shares' magnitudes below one
    /// nor all column sums.
    Sums,
    /// In a list: the receiving or giving vat of this transfer, counted from 0, is none
    /// from 1 to n.
    TransferVat(usize),
    /// In a list: this transfer, counted from 0, does not come after the one before it,
    /// by receiving and then giving vat.
    TransferOrder(usize),
    /// On half rows: the other half pass is due, or nothing is loaded.
    NotDue,
    /// On half rows: the vat to be narrowed is none from 1 to n.
    NoVat,
}

impl From<KifwalebOutcome> for Outcome {
    /// Panics at a number that no call returns: the archive is then of another
    /// version.
    fn from(given: KifwalebOutcome) -> Outcome {
        let place = given.place as usize;
        Outcome::Refused(match given.number {
            0 => return Outcome::Done,
            9 => return Outcome::Spent,
            1 => Refusal::Size,
            2 => Refusal::Length(place),
            3 => Refusal::Ends(place),
            4 => Refusal::Allowed,
            5 => Refusal::ContainsZero(place),
            6 => Refusal::OutOfRange(place),
            7 => Refusal::Empty(place),
            8 => Refusal::Text(place),
            10 => Refusal::Sums,
            11 => Refusal::TransferVat(place),
            12 => Refusal::TransferOrder(place),
            19 => Refusal::NotDue,
            20 => Refusal::NoVat,
            number => panic!("the archive returned {number}, place {place}"),
        })
    }
}
