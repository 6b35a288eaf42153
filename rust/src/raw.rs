//! The archive's C functions, as `include/kifwaleb.h` declares them. The safe
//! calls of this package are made of them; nothing else needs them but a caller
//! that lends memory in a way of its own.
//!
//! ```
//! let sum = unsafe { kifwaleb::raw::kifwaleb_sum(1, 2, 30, 40) };
//! assert_eq!((sum.number, sum.place, sum.lo, sum.hi), (0, 0, 31, 42));
//! ```
//!
//! # Safety
//!
//! The functions accept any numbers, lengths and bytes. A pointer comes with
//! its length, which counts numbers, bytes or transfers. It is never null, also
//! with length 0, and is aligned; as many numbers, bytes or transfers lie there,
//! all of them set. What a `*mut` pointer names shares no memory with another
//! slice of the call.

use crate::Transfer;

/// The numbers of a state of half rows: exactly so many, all 0 while nothing is loaded.
pub const HALF_LENGTH: usize = 2_434;

/// Where the box begins in a state of half rows.
pub const HALF_BOX: usize = 2;

/// What a single step answers. `lo` and `hi` are 0 on a refusal.
#[repr(C)]
#[derive(Clone, Copy, Debug, PartialEq, Eq)]
pub struct KifwalebStep {
    /// The number of the table of outcomes.
    pub number: u64,
    /// The place that goes with the number.
    pub place: u64,
    /// The lower end.
    pub lo: i64,
    /// The upper end.
    pub hi: i64,
}

/// What any other call but `kifwaleb_narrower` answers.
#[repr(C)]
#[derive(Clone, Copy, Debug, PartialEq, Eq)]
pub struct KifwalebOutcome {
    /// The number of the table of outcomes.
    pub number: u64,
    /// The place that goes with the number.
    pub place: u64,
    /// Whole sweeps, or the bytes of a sheet; 0 for an elimination, for a start box
    /// and on half rows.
    pub count: u64,
}

extern "C" {
    /// As [`sum`](crate::sum).
    pub fn kifwaleb_sum(a_lo: i64, a_hi: i64, b_lo: i64, b_hi: i64) -> KifwalebStep;

    /// As [`difference`](crate::difference).
    pub fn kifwaleb_difference(a_lo: i64, a_hi: i64, b_lo: i64, b_hi: i64) -> KifwalebStep;

    /// As [`product`](crate::product).
    pub fn kifwaleb_product(a_lo: i64, a_hi: i64, b_lo: i64, b_hi: i64) -> KifwalebStep;

    /// As [`quotient`](crate::quotient).
    pub fn kifwaleb_quotient(a_lo: i64, a_hi: i64, b_lo: i64, b_hi: i64) -> KifwalebStep;

    /// As [`eliminate`](crate::eliminate).
    pub fn kifwaleb_eliminate(
        n: usize,
        a: *const i64,
        a_len: usize,
        f: *const i64,
        f_len: usize,
        bounds: *mut i64,
        bounds_len: usize,
    ) -> KifwalebOutcome;

    /// As [`eliminate_balance`](crate::eliminate_balance).
    pub fn kifwaleb_eliminate_balance(
        n: usize,
        b_matrix: *const i64,
        b_matrix_len: usize,
        b: *const i64,
        b_len: usize,
        bounds: *mut i64,
        bounds_len: usize,
    ) -> KifwalebOutcome;

    /// As [`start_box`](crate::start_box).
    pub fn kifwaleb_start_box(
        n: usize,
        b_matrix: *const i64,
        b_matrix_len: usize,
        b: *const i64,
        b_len: usize,
        bounds: *mut i64,
        bounds_len: usize,
    ) -> KifwalebOutcome;

    /// As [`sweep`](crate::sweep).
    pub fn kifwaleb_sweep(
        n: usize,
        b_matrix: *const i64,
        b_matrix_len: usize,
        b: *const i64,
        b_len: usize,
        bounds: *mut i64,
        bounds_len: usize,
        allowed: usize,
    ) -> KifwalebOutcome;

    /// As [`symmetric_sweep`](crate::symmetric_sweep).
    pub fn kifwaleb_symmetric_sweep(
        n: usize,
        b_matrix: *const i64,
        b_matrix_len: usize,
        b: *const i64,
        b_len: usize,
        bounds: *mut i64,
        bounds_len: usize,
        allowed: usize,
    ) -> KifwalebOutcome;

    /// As [`eliminate_transfers`](crate::eliminate_transfers).
    pub fn kifwaleb_eliminate_transfers(
        n: usize,
        transfers: *const Transfer,
        count: usize,
        b: *const i64,
        b_len: usize,
        bounds: *mut i64,
        bounds_len: usize,
    ) -> KifwalebOutcome;

    /// As [`sweep_transfers`](crate::sweep_transfers).
    pub fn kifwaleb_sweep_transfers(
        n: usize,
        transfers: *const Transfer,
        count: usize,
        b: *const i64,
        b_len: usize,
        bounds: *mut i64,
        bounds_len: usize,
        allowed: usize,
    ) -> KifwalebOutcome;

    /// As [`symmetric_sweep_transfers`](crate::symmetric_sweep_transfers).
    pub fn kifwaleb_symmetric_sweep_transfers(
        n: usize,
        transfers: *const Transfer,
        count: usize,
        b: *const i64,
        b_len: usize,
        bounds: *mut i64,
        bounds_len: usize,
        allowed: usize,
    ) -> KifwalebOutcome;

    /// As [`HalfRows::load`](crate::HalfRows::load), into a state of any numbers.
    pub fn kifwaleb_half_load(
        state: *mut i64,
        state_len: usize,
        n: usize,
        b_matrix: *const i64,
        b_matrix_len: usize,
        b: *const i64,
        b_len: usize,
        bounds: *const i64,
        bounds_len: usize,
    ) -> KifwalebOutcome;

    /// As [`HalfRows::up`](crate::HalfRows::up).
    pub fn kifwaleb_half_up(state: *mut i64, state_len: usize) -> KifwalebOutcome;

    /// As [`HalfRows::down`](crate::HalfRows::down).
    pub fn kifwaleb_half_down(state: *mut i64, state_len: usize) -> KifwalebOutcome;

    /// As [`HalfRows::narrow`](crate::HalfRows::narrow).
    pub fn kifwaleb_half_narrow(
        state: *mut i64,
        state_len: usize,
        vat: usize,
        lo: i64,
        hi: i64,
    ) -> KifwalebOutcome;

    /// As [`narrower`](crate::narrower), by a number: 1 for the first, 2 for the
    /// second, 0 for neither. It is no number of the table of outcomes.
    pub fn kifwaleb_narrower(
        n: usize,
        first: *const i64,
        first_len: usize,
        second: *const i64,
        second_len: usize,
    ) -> u64;

    /// As [`report`](crate::report).
    pub fn kifwaleb_report(
        text: *const u8,
        text_len: usize,
        out: *mut u8,
        out_len: usize,
    ) -> KifwalebOutcome;
}
