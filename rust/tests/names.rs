//! Every number that a call returns has its name, and a refusal changes nothing
//! that was lent.

use kifwaleb::{difference, product, quotient, sum, Interval, Step, HIGHEST};
use kifwaleb::{eliminate, eliminate_balance, narrower, report, start_box, sweep, symmetric_sweep};
use kifwaleb::{eliminate_transfers, sweep_transfers, symmetric_sweep_transfers, Transfer};
use kifwaleb::{raw, HalfRows, Outcome, Refusal, MOST_TRANSFERS, SHEET_LENGTH};

const ONE: [i64; 2] = [1_000_000; 2];

#[test]
fn each_step_has_its_value_and_its_refusals() {
    let (one, three) = (Interval::point(1_000_000), Interval::point(3_000_000));
    let crossed = Interval { lo: 1, hi: 0 };
    assert_eq!(sum(one, three), Step::Value(Interval::point(4_000_000)));
    assert_eq!(
        difference(one, three),
        Step::Value(Interval::point(-2_000_000))
    );
    assert_eq!(product(one, three), Step::Value(three));
    assert_eq!(quotient(three, one), Step::Value(three));
    assert_eq!(sum(crossed, one), Step::BadOperand(0));
    assert_eq!(difference(one, crossed), Step::BadOperand(1));
    assert_eq!(product(three, Interval::point(HIGHEST)), Step::OutOfRange);
    assert_eq!(quotient(one, Interval { lo: 0, hi: 1 }), Step::ZeroDivisor);
}

fn assert_refused(refusal: Refusal, call: impl Fn(&mut [i64]) -> Outcome) {
    let mut bounds = [7, 8];
    assert_eq!(call(&mut bounds), Outcome::Refused(refusal));
    assert_eq!(bounds, [7, 8]);
}

#[test]
fn each_refusal_of_an_elimination_has_its_name() {
    let eliminated = |n, a: &[i64], f: &[i64], refusal| {
        assert_refused(refusal, |bounds| eliminate(n, a, f, bounds));
    };
    eliminated(33, &ONE, &ONE, Refusal::Size);
    eliminated(1, &[], &ONE, Refusal::Length(1));
    eliminated(1, &ONE, &[], Refusal::Length(2));
    eliminated(1, &ONE, &[1, 0], Refusal::Ends(1));
    eliminated(1, &[-1, 1], &ONE, Refusal::ContainsZero(1));
    eliminated(1, &[1, 1], &ONE, Refusal::OutOfRange(1));
    assert_refused(Refusal::Length(3), |bounds| {
        eliminate_balance(1, &ONE, &ONE, &mut bounds[..1])
    });
}

#[test]
fn each_refusal_of_a_start_box_has_its_name() {
    let started = |n, share: &[i64], delivery: &[i64], refusal| {
        assert_refused(refusal, |bounds| start_box(n, share, delivery, bounds));
    };
    started(0, &[0, 0], &ONE, Refusal::Size);
    started(1, &[0], &ONE, Refusal::Length(1));
    started(1, &[0, 0], &[0], Refusal::Length(2));
    started(1, &[1, 0], &ONE, Refusal::Ends(0));
    started(1, &ONE, &ONE, Refusal::Sums);
    started(1, &[-999_999, 0], &ONE, Refusal::OutOfRange(0));
    assert_refused(Refusal::Length(3), |bounds| {
        start_box(1, &[0, 0], &ONE, &mut bounds[..1])
    });
}

#[test]
fn the_narrower_box_is_handed_back_itself() {
    let boxes = [[0, 5], [7, 11], [4, 8], [1, 0]];
    let chosen = |first: usize, second: usize| {
        let chosen = narrower(1, &boxes[first], &boxes[second]);
        boxes
            .iter()
            .position(|numbers| std::ptr::eq(chosen, numbers))
    };
    assert_eq!(chosen(0, 1), Some(1));
    assert_eq!([chosen(1, 2), chosen(2, 1)], [Some(1), Some(2)]);
    assert_eq!([chosen(0, 3), chosen(3, 0)], [Some(0); 2]);
    let neither = narrower(1, &boxes[3], &boxes[3]);
    assert!(std::ptr::eq(neither, &boxes[3][..0]));
    assert!(narrower(33, &boxes[0], &boxes[1]).is_empty());
    // The same box twice is told from its number alone.
    let (numbers, length) = (boxes[0].as_ptr(), boxes[0].len());
    let number = unsafe { raw::kifwaleb_narrower(1, numbers, length, numbers, length) };
    assert_eq!(number, 1);
}

#[test]
fn each_refusal_of_a_sweep_call_has_its_name() {
    for call in [sweep, symmetric_sweep] {
        let swept = |delivery: &[i64], allowed, refusal| {
            assert_refused(refusal, |bounds| {
                call(1, &[0, 0], delivery, bounds, allowed).outcome
            });
        };
        swept(&[7, 8], 0, Refusal::Allowed);
        swept(&[1, 0], 1, Refusal::Ends(1));
        swept(&[9, 9], 1, Refusal::Empty(1));
    }
}

/// x = x + 1 from 0 to 3: the lower end rises by a unit each way, so that it is past the
/// upper one on the second way back.
#[test]
fn the_way_back_is_another_sweep_of_the_same_pass() {
    let mut bounds = [0, 3];
    let empty = symmetric_sweep(1, &ONE, &[1, 1], &mut bounds, 9);
    assert_eq!(empty.outcome, Outcome::Refused(Refusal::Empty(1)));
    assert_eq!((empty.count, bounds), (1, [0, 3]));
    let spent = symmetric_sweep(1, &ONE, &[1, 1], &mut bounds, 1);
    assert_eq!((spent.outcome, spent.count), (Outcome::Spent, 1));
    assert_eq!(bounds, [2, 3]);
}

/// Between two vats, or of one to itself.
fn transfer(receiver: i64, giver: i64, [lo, hi]: [i64; 2]) -> Transfer {
    Transfer {
        receiver,
        giver,
        lo,
        hi,
    }
}

#[test]
fn each_refusal_of_a_list_has_its_name() {
    let (whole, crossed) = (transfer(1, 1, ONE), transfer(1, 1, [1, 0]));
    let [received, given] = [transfer(2, 1, ONE), transfer(1, 0, ONE)];
    let long = [whole; MOST_TRANSFERS + 1];
    let listed = |n, list: &[Transfer], delivery: &[i64], refusal| {
        assert_refused(refusal, |bounds| {
            eliminate_transfers(n, list, delivery, bounds)
        });
        for call in [sweep_transfers, symmetric_sweep_transfers] {
            assert_refused(refusal, |bounds| call(n, list, delivery, bounds, 1).outcome);
        }
    };
    listed(33, &long, &ONE, Refusal::Size);
    listed(1, &long, &[], Refusal::Length(1));
    listed(1, &long[..2], &[], Refusal::Length(2));
    listed(1, &[crossed, crossed, given], &ONE, Refusal::TransferVat(2));
    listed(1, &[received, crossed], &ONE, Refusal::TransferVat(0));
    listed(1, &[crossed, crossed], &ONE, Refusal::TransferOrder(1));
    listed(1, &[crossed], &[1, 0], Refusal::Ends(0));
    listed(1, &[whole], &[1, 0], Refusal::Ends(1));
    listed(1, &[], &[1, 0], Refusal::Ends(0));
}

#[test]
fn each_end_of_an_elimination_from_a_list_has_its_name() {
    let eliminated = |share, refusal| {
        assert_refused(refusal, |bounds| {
            eliminate_transfers(1, &[transfer(1, 1, share)], &ONE, bounds)
        });
    };
    eliminated(ONE, Refusal::ContainsZero(1));
    eliminated([-2_000_000_000, 0], Refusal::OutOfRange(1));
    assert_refused(Refusal::Length(3), |bounds| {
        eliminate_transfers(1, &[], &ONE, &mut bounds[..1])
    });
    let mut bounds = [8, 7];
    let done = eliminate_transfers(1, &[], &ONE, &mut bounds);
    assert_eq!((done, bounds), (Outcome::Done, ONE));
}

#[test]
fn each_end_of_sweeps_from_a_list_has_its_name() {
    let (whole, none) = (transfer(1, 1, ONE), transfer(0, 0, ONE));
    for call in [sweep_transfers, symmetric_sweep_transfers] {
        let swept = |list: &[Transfer], bounds: &mut [i64], allowed| {
            call(1, list, &[7, 7], bounds, allowed).outcome
        };
        assert_refused(Refusal::Allowed, |bounds| swept(&[none], bounds, 0));
        assert_refused(Refusal::Empty(1), |bounds| swept(&[whole], bounds, 1));
        let refused = swept(&[whole], &mut [8, 7], 1);
        assert_eq!(refused, Outcome::Refused(Refusal::Ends(2)));
        let mut bounds = [0, 9];
        assert_eq!(swept(&[], &mut bounds, 1), Outcome::Spent);
        assert_eq!(swept(&[], &mut bounds, 1), Outcome::Done);
        assert_eq!(bounds, [7, 7]);
    }
}

#[test]
fn each_refusal_of_a_load_has_its_name() {
    let loaded = |n, share: &[i64], delivery: &[i64], bounds: &[i64], refusal| {
        let refused = HalfRows::load(n, share, delivery, bounds);
        assert_eq!(refused.err(), Some(refusal));
    };
    loaded(33, &ONE, &ONE, &ONE, Refusal::Size);
    loaded(1, &[], &ONE, &ONE, Refusal::Length(1));
    loaded(1, &ONE, &[], &ONE, Refusal::Length(2));
    loaded(1, &ONE, &ONE, &[], Refusal::Length(3));
    loaded(1, &ONE, &ONE, &[1, 0], Refusal::Ends(2));
}

/// x = x + 1 from 0 to 1: the lower end rises by a unit each way.
#[test]
fn each_refusal_on_half_rows_has_its_name_and_changes_nothing() {
    let mut rows = HalfRows::load(1, &ONE, &[1, 1], &[0, 1]).unwrap();
    assert_eq!(rows.down(), Err(Refusal::NotDue));
    assert_eq!(rows.up(), Ok(()));
    assert_eq!(rows.up(), Err(Refusal::NotDue));
    for _ in 0..2 {
        assert_eq!(rows.down(), Err(Refusal::Empty(1)));
    }
    assert_eq!(rows.narrow(0, 1, 0), Err(Refusal::NoVat));
    assert_eq!(rows.narrow(usize::MAX, 1, 0), Err(Refusal::NoVat));
    assert_eq!(rows.narrow(1, 1, 0), Err(Refusal::Ends(0)));
    assert_eq!(rows.narrow(1, 2, 3), Err(Refusal::Empty(1)));
    assert_eq!(rows.reload(1, &ONE, &ONE, &[]), Err(Refusal::Length(3)));
    assert_eq!((rows.narrow(1, 1, 3), rows.bounds()), (Ok(()), &[1, 1][..]));
    assert_eq!(rows.reload(1, &ONE, &[0, 0], &[4, 5]), Ok(()));
    assert_eq!((rows.up(), rows.bounds()), (Ok(()), &[4, 5][..]));
}

/// Which the type rules out, but not its memory.
#[test]
fn nothing_is_due_where_nothing_is_loaded() {
    let mut state = [0; raw::HALF_LENGTH + 1];
    for length in [0, raw::HALF_LENGTH, raw::HALF_LENGTH + 1] {
        let numbers = state.as_mut_ptr();
        let given = unsafe { raw::kifwaleb_half_up(numbers, length) };
        let named = Outcome::Refused(Refusal::NotDue);
        assert_eq!((Outcome::from(given), given.count), (named, 0));
    }
    assert!(state.iter().all(|number| *number == 0));
}

#[test]
fn a_sheet_is_written_at_the_beginning() {
    let mut out = [b'.'; SHEET_LENGTH];
    let written = report(b"a\n0:0\n5:6\n", &mut out);
    assert_eq!((written.outcome, written.count), (Outcome::Done, 16));
    assert_eq!(&out[..18], b"a\n5:6\nsettled 1\n..");
}

#[test]
fn a_refused_text_leaves_the_sheet() {
    let mut out = [b'.'; SHEET_LENGTH];
    let written = report(b"a\n0:0\n", &mut out);
    assert_eq!(written.outcome, Outcome::Refused(Refusal::Text(3)));
    assert_eq!((written.count, out), (0, [b'.'; SHEET_LENGTH]));
}
