//! The numbers of document 01's table, which document 02 goes on with.

/// Done, or settled; the box is written.
pub const DONE: u64 = 0;
/// The number of equations is 0 or above 32.
pub const FAULTY_SIZE: u64 = 1;
/// A slice has the wrong length.
pub const FAULTY_LENGTH: u64 = 2;
/// Ends out of sequence or out of the range.
pub const FAULTY_ENDS: u64 = 3;
/// The number of sweeps allowed is 0 or above 10,000.
pub const FAULTY_ALLOWANCE: u64 = 4;
/// A divisor or pivot contains 0.
pub const ZERO_DIVISOR: u64 = 5;
/// A result is out of the range.
pub const RESULT_OUT_OF_RANGE: u64 = 6;
/// An intersection is empty.
pub const EMPTY: u64 = 7;
/// The text is not as described.
pub const FAULTY_TEXT: u64 = 8;
/// The last allowed sweep still changed an end; the box is written.
pub const SPENT: u64 = 9;
/// Neither are all row sums of magnitudes below one nor all column sums.
pub const FAULTY_SUMS: u64 = 10;
/// A transfer's vat is outside 1 to n.
pub const TRANSFER_VAT: u64 = 11;
/// A transfer does not come after the one before it.
pub const TRANSFER_ORDER: u64 = 12;
/// Nothing is loaded, or a half pass is out of turn.
pub const NOT_DUE: u64 = 19;
/// A narrowed vat outside 1 to n.
pub const NO_VAT: u64 = 20;
