//! What a call over a system returns, and why it stopped.

use super::numbers::{
    DONE, FAULTY_ENDS, FAULTY_LENGTH, FAULTY_SIZE, FAULTY_SUMS, RESULT_OUT_OF_RANGE, ZERO_DIVISOR,
};

use std::fmt;

/// What a call returns.
#[derive(Clone, Copy, Debug, PartialEq, Eq)]
pub struct Outcome {
    pub number: u64,
    pub place: u64,
    pub count: u64,
}

/// The lent slices in the sequence in which their lengths are tested.
#[derive(Clone, Copy, Debug, PartialEq, Eq, PartialOrd, Ord)]
pub enum Slice {
    Matrix,
    RightSide,
    Box,
}

/// The results of an elimination, or of a start box, that must lie in the range.
#[derive(Clone, Copy, Debug, PartialEq, Eq, PartialOrd, Ord)]
pub enum Phase {
    /// An entry of I − B.
    Forming,
    Factor,
    /// A changed a(i,j).
    Entry,
    /// A changed f(i).
    RightSide,
    Numerator,
    /// An x(i), or a reach.
    Quotient,
    /// What is divided to get a reach.
    Dividend,
    /// Of a start box.
    End,
}

/// Why a call ended without a box. The outcome tells less: it does not name
/// the phase of a result out of the range.
#[derive(Clone, Copy, Debug, PartialEq, Eq)]
pub enum Stop {
    Size,
    Length(Slice),
    /// Counted in intervals from 0 through matrix, right side and, in a sweep
    /// call, start box.
    Ends {
        position: usize,
    },
    /// Counted from 1.
    Pivot {
        k: usize,
    },
    /// The row is counted from 1; 0 in a start box.
    OutOfRange {
        phase: Phase,
        row: usize,
    },
    /// Neither all row sums nor all column sums are below one.
    Sums,
}

impl Outcome {
    pub const DONE: Outcome = Outcome::new(DONE, 0);

    /// An elimination counts no sweeps.
    pub const fn new(number: u64, place: u64) -> Outcome {
        Outcome::counted(number, place, 0)
    }

    pub const fn counted(number: u64, place: u64, count: u64) -> Outcome {
        Outcome {
            number,
            place,
            count,
        }
    }
}

impl fmt::Display for Outcome {
    fn fmt(&self, formatter: &mut fmt::Formatter) -> fmt::Result {
        write!(
            formatter,
            "number {}, place {}, count {}",
            self.number, self.place, self.count
        )
    }
}

impl Slice {
    pub const ALL: [Slice; 3] = [Slice::Matrix, Slice::RightSide, Slice::Box];

    pub fn place(self) -> u64 {
        match self {
            Slice::Matrix => 1,
            Slice::RightSide => 2,
            Slice::Box => 3,
        }
    }
}

impl Phase {
    /// Of an elimination.
    pub const ALL: [Phase; 6] = [
        Phase::Forming,
        Phase::Factor,
        Phase::Entry,
        Phase::RightSide,
        Phase::Numerator,
        Phase::Quotient,
    ];
}

impl From<Stop> for Outcome {
    fn from(stop: Stop) -> Outcome {
        match stop {
            Stop::Size => Outcome::new(FAULTY_SIZE, 0),
            Stop::Length(slice) => Outcome::new(FAULTY_LENGTH, slice.place()),
            Stop::Ends { position } => Outcome::new(FAULTY_ENDS, position as u64),
            Stop::Pivot { k } => Outcome::new(ZERO_DIVISOR, k as u64),
            Stop::OutOfRange { row, .. } => Outcome::new(RESULT_OUT_OF_RANGE, row as u64),
            Stop::Sums => Outcome::new(FAULTY_SUMS, 0),
        }
    }
}
