//! The archives under test, by their C functions: memory between guards, wrong
//! lengths and all.

use crate::case::Slices;
use crate::reference::{Call, HalfCall, Interval, ListCall, Operation, Outcome, Pass, TRANSFER};
use crate::side::{Flat, Side};
use kifwaleb::raw::{self, KifwalebOutcome};
use kifwaleb::Transfer;
use std::slice;

pub struct Archive;

// In the second archive: no call for others.
extern "C" {
    fn kifwaleb_first_byte(s: *const u8, length: usize, from: usize, b: u8) -> usize;
}

impl Side for Archive {
    fn step(&self, operation: Operation, a: Interval, b: Interval) -> Flat {
        let function = match operation {
            Operation::Sum => raw::kifwaleb_sum,
            Operation::Difference => raw::kifwaleb_difference,
            Operation::Product => raw::kifwaleb_product,
            Operation::Quotient => raw::kifwaleb_quotient,
        };
        // SAFETY: plain numbers, of which any are accepted.
        let given = unsafe { function(a.lo, a.hi, b.lo, b.hi) };
        (given.number, given.place, given.lo, given.hi)
    }

    fn eliminate(&self, call: Call, n: usize, lent: Slices) -> Outcome {
        match call {
            Call::Eliminate => lend!(kifwaleb_eliminate, n, lent),
            Call::EliminateBalance => lend!(kifwaleb_eliminate_balance, n, lent),
        }
    }

    fn start_box(&self, n: usize, lent: Slices) -> Outcome {
        lend!(kifwaleb_start_box, n, lent)
    }

    fn sweep(&self, pass: Pass, n: usize, lent: Slices, allowed: usize) -> Outcome {
        match pass {
            Pass::There => lend!(kifwaleb_sweep, n, lent, allowed),
            Pass::ThereAndBack => lend!(kifwaleb_symmetric_sweep, n, lent, allowed),
        }
    }

    fn transfers(&self, call: ListCall, n: usize, lent: Slices) -> Outcome {
        let lent = listed(lent);
        match call {
            ListCall::Eliminate => lend!(kifwaleb_eliminate_transfers, n, lent),
            ListCall::Sweep(Pass::There, allowed) => {
                lend!(kifwaleb_sweep_transfers, n, lent, allowed)
            }
            ListCall::Sweep(Pass::ThereAndBack, allowed) => {
                lend!(kifwaleb_symmetric_sweep_transfers, n, lent, allowed)
            }
        }
    }

    fn half_rows(&self, call: HalfCall, state: &mut [i64], n: usize, lent: Slices) -> Outcome {
        let (state, length) = (state.as_mut_ptr(), state.len());
        let given = match call {
            HalfCall::Load => return lend!(kifwaleb_half_load[state, length], n, lent),
            // SAFETY: as for `lend`; so below.
            HalfCall::Up => unsafe { raw::kifwaleb_half_up(state, length) },
            HalfCall::Down => unsafe { raw::kifwaleb_half_down(state, length) },
            HalfCall::Narrow(vat, Interval { lo, hi }) => unsafe {
                raw::kifwaleb_half_narrow(state, length, vat, lo, hi)
            },
        };
        given.into()
    }

    /// C is told a number; the Rust package makes a slice of it.
    fn narrower<'a>(&self, n: usize, first: &'a [i64], second: &'a [i64]) -> &'a [i64] {
        kifwaleb::narrower(n, first, second)
    }

    fn report(&self, text: &mut [u8], out: &mut [u8]) -> Outcome {
        // SAFETY: as for `lend`.
        let given = unsafe {
            raw::kifwaleb_report(text.as_mut_ptr(), text.len(), out.as_mut_ptr(), out.len())
        };
        given.into()
    }

    fn first_byte(&self, bytes: &mut [u8], from: usize, sought: u8) -> usize {
        // SAFETY: as for `lend`.
        unsafe { kifwaleb_first_byte(bytes.as_mut_ptr(), bytes.len(), from, sought) }
    }
}

/// Lends three slices: n first, behind a state's pointer and length if there is one,
/// then each slice's pointer and length, then whatever else the function takes.
macro_rules! lend {
    ($function:ident $([$state:expr, $length:expr])?, $n:expr, $lent:expr $(, $further:expr)?) => {{
        let Slices { matrix, right_side, bounds } = $lent;
        // The pointers to const are taken from changeable slices, so that a
        // change the archive must not make would be seen and nothing else.
        // SAFETY: each pointer comes with the length of its slice, the slices
        // do not overlap, and the functions accept any numbers.
        let given = unsafe {
            raw::$function(
                $($state, $length,)?
                $n,
                matrix.as_mut_ptr(),
                matrix.len(),
                right_side.as_mut_ptr(),
                right_side.len(),
                bounds.as_mut_ptr(),
                bounds.len(),
                $($further,)?
            )
        };
        given.into()
    }};
}
use lend;

/// The list as the archive takes it.
fn listed(lent: Slices<'_>) -> Slices<'_, Transfer> {
    let count = lent.matrix.len() / TRANSFER;
    let list = lent.matrix.as_mut_ptr().cast();
    Slices {
        // SAFETY: a transfer lies in memory as four numbers do, as a test shows.
        matrix: unsafe { slice::from_raw_parts_mut(list, count) },
        right_side: lent.right_side,
        bounds: lent.bounds,
    }
}

impl From<KifwalebOutcome> for Outcome {
    fn from(given: KifwalebOutcome) -> Outcome {
        Outcome::counted(given.number, given.place, given.count)
    }
}

#[cfg(test)]
mod tests {
    use super::*;
    use crate::case::Case;
    use crate::reference::System;
    use std::mem::{align_of, offset_of, size_of};

    #[test]
    fn a_transfer_lies_in_memory_as_four_numbers_do() {
        assert_eq!([size_of::<Transfer>(), align_of::<Transfer>()], [32, 8]);
        let vats = [offset_of!(Transfer, receiver), offset_of!(Transfer, giver)];
        let ends = [offset_of!(Transfer, lo), offset_of!(Transfer, hi)];
        assert_eq!([vats, ends], [[0, 8], [16, 24]]);
    }

    /// Behind two transfers of three vats. With any two numbers taken for each other, the
    /// first list would be refused.
    #[test]
    fn the_archive_takes_each_number_for_what_it_is() {
        let [there, back] = Pass::ALL.map(|pass| ListCall::Sweep(pass, 1));
        for (transfer, end) in [
            ([2, 3, 5, 6], [0, 0]),
            ([3, 1, 5, 6], [0, 0]),
            ([4, 3, 5, 6], [11, 2]),
            ([2, 4, 5, 6], [11, 2]),
            ([1, 3, 5, 6], [12, 2]),
            ([2, 1, 5, 6], [12, 2]),
            ([2, 3, 7, 6], [3, 2]),
            ([2, 3, -2_000_000_001, 6], [3, 2]),
            ([2, 3, 5, 2_000_000_001], [3, 2]),
        ] {
            let mut lent = Case::new(&System::noughts(3));
            lent.matrix = [[1, 3, 5, 6], [2, 1, 5, 6], transfer].concat();
            for call in [ListCall::Eliminate, there, back] {
                let answer = lent.answer(|n, slices| Archive.transfers(call, n, slices));
                let outcome = answer.outcome;
                assert_eq!([outcome.number, outcome.place], end, "{transfer:?}");
            }
        }
    }
}
