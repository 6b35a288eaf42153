//! The list of transfers of document 02, A7: its tests, and the square that it stands for.

use super::elimination::{calculate, Call};
use super::interval::Interval;
use super::numbers::{FAULTY_LENGTH, TRANSFER_ORDER, TRANSFER_VAT};
use super::outcome::Outcome;
use super::rows::Rounding;
use super::sweep::{swept, test_allowed, Pass};
use super::system::{intervals, test_ends, test_size, System};

/// The most transfers of a list.
pub const MOST_TRANSFERS: usize = 1_024;

/// The numbers of one: receiving vat, giving vat, lower and upper share.
pub const TRANSFER: usize = 4;

/// The calls from a list.
#[derive(Clone, Copy, Debug, PartialEq, Eq)]
pub enum ListCall {
    Eliminate,
    /// With so many sweeps allowed.
    Sweep(Pass, usize),
}

impl ListCall {
    pub fn name(self) -> &'static str {
        match self {
            ListCall::Eliminate => "eliminate_transfers",
            ListCall::Sweep(Pass::There, _) => "sweep_transfers",
            ListCall::Sweep(Pass::ThereAndBack, _) => "symmetric_sweep_transfers",
        }
    }
}

/// The numbers of the list come in fours.
pub fn transfers(call: ListCall, n: usize, list: &[i64], b: &[i64], bounds: &mut [i64]) -> Outcome {
    match (read(call, n, [list, b, bounds]), call) {
        (Err(refusal), _) => refusal,
        (Ok(balance), ListCall::Eliminate) => {
            calculate(Call::EliminateBalance, balance).finish(bounds)
        }
        (Ok(balance), ListCall::Sweep(pass, allowed)) => {
            let start = intervals(bounds);
            swept(Rounding::Once, pass, &balance, start, allowed).finish(bounds)
        }
    }
}

/// The balance, once all has passed the tests in the sequence 1, 2, 4, 11, 12, 3.
fn read(call: ListCall, n: usize, [list, b, bounds]: [&[i64]; 3]) -> Result<System, Outcome> {
    test_size(n)?;
    let list: Vec<_> = list.chunks_exact(TRANSFER).collect();
    // Of the list only that it is not too long.
    let wrong = [
        list.len() > MOST_TRANSFERS,
        b.len() != 2 * n,
        bounds.len() != 2 * n,
    ];
    let place = wrong.iter().position(|wrong| *wrong);
    refuse(FAULTY_LENGTH, place.map(|slice| slice + 1))?;
    let mut start = Vec::new();
    if let ListCall::Sweep(_, allowed) = call {
        test_allowed(allowed).map_err(|end| end.outcome())?;
        start = intervals(bounds);
    }
    let vats = 1..=n as i64;
    let outside = |transfer: &&[i64]| transfer[..2].iter().any(|vat| !vats.contains(vat));
    refuse(TRANSFER_VAT, list.iter().position(outside))?;
    let not_after = |k: &usize| list[*k][..2] <= list[*k - 1][..2];
    refuse(TRANSFER_ORDER, (1..list.len()).find(not_after))?;
    let shares = list
        .iter()
        .map(|transfer| Interval::new(transfer[2], transfer[3]));
    let (shares, b): (Vec<_>, _) = (shares.collect(), intervals(b));
    test_ends(shares.iter().chain(&b).chain(&start))?;
    // What is not listed is nought.
    let mut square = vec![Interval::point(0); n * n];
    for (transfer, share) in list.iter().zip(shares) {
        let [receiver, giver] = [transfer[0], transfer[1]].map(|vat| vat as usize);
        square[(receiver - 1) * n + giver - 1] = share;
    }
    Ok(System::new(n, square, b))
}

fn refuse(number: u64, place: Option<usize>) -> Result<(), Outcome> {
    place.map_or(Ok(()), |place| Err(Outcome::new(number, place as u64)))
}

#[cfg(test)]
mod tests {
    use super::*;

    const ONE: i64 = 1_000_000;
    const SWEEP: ListCall = ListCall::Sweep(Pass::There, 3);

    /// Two vats; deliveries of 3 tonnes and none. What is refused leaves the box.
    fn run(call: ListCall, list: &[[i64; 4]], start: [i64; 4]) -> ([u64; 3], [i64; 4]) {
        let (b, mut bounds) = ([3 * ONE, 3 * ONE, 0, 0], start);
        let end = transfers(call, 2, &list.concat(), &b, &mut bounds);
        assert!([0, 9].contains(&end.number) || bounds == start);
        ([end.number, end.place, end.count], bounds)
    }

    /// Half of V1 goes on into V2, and at most half of V2 returns.
    #[test]
    fn the_receiving_vat_is_the_row() {
        let list = [[1, 2, 0, ONE / 2], [2, 1, ONE / 2, ONE / 2]];
        let start = [0, 10 * ONE, 0, 10 * ONE];
        let bounds = |first, second| [3 * ONE, first, 3 * ONE / 2, second];
        let eliminated = run(ListCall::Eliminate, &list, [9, 0, 9, 0]);
        assert_eq!(eliminated, ([0, 0, 0], bounds(4 * ONE, 2 * ONE)));
        assert_eq!(
            run(SWEEP, &list, start),
            ([9, 0, 3], bounds(4_250_000, 2_125_000))
        );
        let back = run(ListCall::Sweep(Pass::ThereAndBack, 3), &list, start);
        assert_eq!(back, ([9, 0, 3], bounds(4_062_500, 2_125_000)));
        let alone = [3 * ONE, 3 * ONE, 0, 0];
        assert_eq!(run(SWEEP, &[], start), ([0, 0, 2], alone));
        assert_eq!(run(SWEEP, &list[..1], start), ([0, 0, 3], alone));
        let given = bounds(3 * ONE, 3 * ONE / 2);
        assert_eq!(run(SWEEP, &list[1..], start), ([0, 0, 2], given));
    }

    /// The box is faulty too, and with no sweeps allowed 4 comes first.
    #[test]
    fn tests_run_in_the_sequence_4_11_12_3() {
        let (nought, bad) = (|receiver, giver| [receiver, giver, 0, 0], [2, 2, 1, 0]);
        for (list, refusal) in [
            ([nought(1, 1), nought(1, 2), bad], [3, 2, 0]),
            ([nought(1, 1), nought(1, 2), nought(2, 1)], [3, 5, 0]),
            ([bad, bad, nought(1, 1)], [12, 1, 0]),
            ([nought(1, 1), bad, nought(2, 1)], [12, 2, 0]),
            ([nought(1, 2), bad, nought(1, 2)], [12, 2, 0]),
            ([bad, bad, nought(0, 2)], [11, 2, 0]),
            ([bad, nought(1, 3), nought(1, 1)], [11, 1, 0]),
            ([nought(i64::MAX, 1), bad, nought(1, i64::MIN)], [11, 0, 0]),
        ] {
            assert_eq!(run(SWEEP, &list, [8, 7, 0, 0]).0, refusal, "{list:?}");
            let none = ListCall::Sweep(Pass::There, 0);
            assert_eq!(run(none, &list, [8, 7, 0, 0]).0, [4, 0, 0], "{list:?}");
        }
        assert_eq!(run(ListCall::Eliminate, &[], [8, 7, 0, 0]).0, [0, 0, 0]);
    }

    #[test]
    fn lengths_come_after_the_size_and_before_the_sweeps() {
        for (n, transfers, numbers, refusal) in [
            (33, 1_025, [66, 66], [1, 0]),
            (1, 1_025, [1, 1], [2, 1]),
            (1, 1_024, [1, 1], [2, 2]),
            (1, 0, [2, 1], [2, 3]),
            (32, 1_024, [64, 64], [4, 0]),
        ] {
            let list = [9, 9, 1, 0].repeat(transfers);
            let [b, mut bounds] = numbers.map(|length| vec![0; length]);
            let call = ListCall::Sweep(Pass::There, 0);
            let end = super::transfers(call, n, &list, &b, &mut bounds);
            assert_eq!([end.number, end.place], refusal);
        }
    }
}
