//! Whatever a side answers otherwise is noticed, and what was not reached is
//! named.

use super::*;
use crate::case::{Case, Slices};
use crate::reference::{Call, HalfCall, Interval, ListCall, Operation, Outcome, Pass};
use crate::reference::{HALF_BOX, HALF_LENGTH, LIMIT};
use crate::samples::{identity, three_equations, INPUT};
use crate::side::{Flat, Reference};
use crate::sweep_list::{Solution, SweepList};
use crate::text_case::TextCase;
use std::cell::Cell;
use std::iter;

/// One wrong number or byte in an answer.
#[derive(Clone, Copy, Debug)]
enum Change {
    Number,
    Place,
    Count,
    /// In the first, second or third slice: its first number one less, its last one
    /// more, so that a box gets wider; or another byte.
    Slice(usize, bool),
}

const CHANGES: [Change; 9] = [
    Change::Number,
    Change::Place,
    Change::Count,
    Change::Slice(0, false),
    Change::Slice(0, true),
    Change::Slice(1, false),
    Change::Slice(1, true),
    Change::Slice(2, false),
    Change::Slice(2, true),
];

/// The reference, but for one change in one of its answers.
struct Changed {
    change: Change,
    /// Calls until the changed one.
    calls: Cell<usize>,
}

impl Changed {
    fn is_now(&self) -> bool {
        let calls = self.calls.get();
        self.calls.set(calls.wrapping_sub(1));
        calls == 0
    }

    fn outcome(&self, mut outcome: Outcome) -> Outcome {
        match self.change {
            Change::Number => outcome.number += 1,
            Change::Place => outcome.place += 1,
            Change::Count => outcome.count += 1,
            Change::Slice(..) => (),
        }
        outcome
    }

    /// The number or byte that is to be wrong.
    fn chosen<'a, T>(&self, slices: [&'a mut [T]; 3]) -> Option<&'a mut T> {
        let Change::Slice(slice, last) = self.change else {
            return None;
        };
        let slice = slices.into_iter().nth(slice)?;
        if last {
            slice.last_mut()
        } else {
            slice.first_mut()
        }
    }

    fn numbers(&self, outcome: Outcome, lent: Slices) -> Outcome {
        if !self.is_now() {
            return outcome;
        }
        let slices = [lent.matrix, lent.right_side, lent.bounds];
        let by = match self.change {
            Change::Slice(_, false) => -1,
            _ => 1,
        };
        self.chosen(slices)
            .into_iter()
            .for_each(|number| *number += by);
        self.outcome(outcome)
    }
}

impl Side for Changed {
    fn step(&self, operation: Operation, a: Interval, b: Interval) -> Flat {
        let (number, place, lo, hi) = Reference.step(operation, a, b);
        match self.change {
            Change::Number => (number + 1, place, lo, hi),
            Change::Place => (number, place + 1, lo, hi),
            Change::Count => (number, place, lo + 1, hi),
            Change::Slice(..) => (number, place, lo, hi + 1),
        }
    }

    fn eliminate(&self, call: Call, n: usize, mut lent: Slices) -> Outcome {
        self.numbers(Reference.eliminate(call, n, lent.again()), lent)
    }

    fn start_box(&self, n: usize, mut lent: Slices) -> Outcome {
        self.numbers(Reference.start_box(n, lent.again()), lent)
    }

    fn sweep(&self, pass: Pass, n: usize, mut lent: Slices, allowed: usize) -> Outcome {
        self.numbers(Reference.sweep(pass, n, lent.again(), allowed), lent)
    }

    fn transfers(&self, call: ListCall, n: usize, mut lent: Slices) -> Outcome {
        self.numbers(Reference.transfers(call, n, lent.again()), lent)
    }

    /// In place of the start box, which a load only reads, the box in the state.
    fn half_rows(&self, call: HalfCall, state: &mut [i64], n: usize, mut lent: Slices) -> Outcome {
        let outcome = Reference.half_rows(call, state, n, lent.again());
        let left = Slices {
            bounds: &mut state[HALF_BOX..][..2],
            ..lent
        };
        self.numbers(outcome, left)
    }

    /// The empty part behind the first, if it is to be another than the right one.
    fn narrower<'a>(&self, n: usize, first: &'a [i64], second: &'a [i64]) -> &'a [i64] {
        match self.is_now() {
            true => &first[first.len()..],
            false => Reference.narrower(n, first, second),
        }
    }

    fn report(&self, text: &mut [u8], out: &mut [u8]) -> Outcome {
        let outcome = Reference.report(text, out);
        if !self.is_now() {
            return outcome;
        }
        let byte = self.chosen([text, out, &mut []]);
        byte.into_iter().for_each(|byte| *byte ^= 1);
        self.outcome(outcome)
    }

    fn first_byte(&self, bytes: &mut [u8], from: usize, sought: u8) -> usize {
        let place = Reference.first_byte(bytes, from, sought);
        if !self.is_now() {
            return place;
        }
        match self.chosen([bytes, &mut [], &mut []]) {
            Some(byte) => *byte ^= 1,
            None => return place + 1,
        }
        place
    }
}

/// Each change of the answer to each call is noticed; the reference itself is
/// not.
fn assert_compared<T: Trial + Clone>(goals: &[Goal], trials: &[T], changes: &[Change]) {
    let calls = compare(goals.to_vec(), trials.iter().cloned(), 99, &Reference);
    let calls = calls.unwrap().calls() as usize;
    for change in changes {
        for call in 0..calls {
            let side = Changed {
                change: *change,
                calls: Cell::new(call),
            };
            let found = compare(goals.to_vec(), trials.iter().cloned(), 99, &side);
            assert!(found.is_err(), "{change:?} in call {call}");
        }
    }
}

/// x = x / 2 + 1 unit, so x is 2 units.
fn list(allowed: &[usize]) -> SweepList {
    let lent = Case {
        n: 1,
        matrix: vec![500_000; 2],
        right_side: vec![1; 2],
        bounds: vec![0, 100],
    };
    SweepList::new(lent, allowed)
}

/// On the same balance.
fn half_list(calls: &[HalfCall]) -> HalfList {
    HalfList {
        loads: vec![list(&[]).lent],
        calls: calls.iter().map(|call| (*call, HALF_LENGTH)).collect(),
        solution: None,
    }
}

/// The same balance from a list.
fn listed(call: ListCall) -> Transfers {
    let mut lent = list(&[]).lent;
    lent.matrix.splice(..0, [1, 1]);
    let solution = None;
    Transfers {
        call,
        lent,
        solution,
    }
}

/// In 5 bytes of which places 1 and 2 hold the byte sought.
fn search(from: usize) -> Search {
    let mut memory = Memory([b'-'; Memory::SIZE]);
    memory.slice(6, 5)[1..3].fill(b';');
    Search {
        memory,
        offset: 6,
        length: 5,
        from,
        sought: b';',
    }
}

#[test]
fn every_number_of_an_answer_is_compared() {
    let one = Interval::point(1_000_000);
    let pair = Pair {
        operation: Operation::Sum,
        a: one,
        b: one,
    };
    assert_compared(&goals::of_step(Operation::Sum), &[pair], &CHANGES[..5]);
    let call = Call::Eliminate;
    let refused = three_equations().nth(1).unwrap();
    let both = [identity(2), refused].map(|system| Elimination {
        call,
        lent: Case::new(&system),
    });
    assert_compared(&goals::of_elimination(call), &both, &CHANGES);
    let [there, back] = Pass::ALL;
    let lists = [&[there][..], &[back], &[there, back], &[back, there]];
    let lists = lists.map(|passes| list(&[2, 0, 100, 1]).with(passes));
    assert_compared(&goals::of_sweeps(), &lists, &CHANGES);
    let starts = [list(&[]), SweepList::new(Case::new(&identity(2)), &[])].map(StartBox);
    assert_compared(&goals::of_start_box(), &starts, &CHANGES);
    let boxes = [[0, 5], [7, 7], [1, 0]].map(|ends| Boxes {
        n: 1,
        first: ends.to_vec(),
        second: vec![2, -2],
    });
    assert_compared(&goals::of_narrower(), &boxes, &CHANGES[..3]);
    let texts = [INPUT, b"a\n1:0\n0:0\n"].map(|text| TextCase::new(text.to_vec()));
    assert_compared(&goals::of_report(), &texts, &CHANGES[..7]);
    assert_compared(&goals::of_search(), &[0, 3].map(search), &CHANGES[..5]);
}

/// Calls that end as before: spent, refused, settled, and an elimination done, without
/// a pivot, with a factor and with a quotient out of the range. After a 7 nothing but
/// its number is compared.
#[test]
fn a_box_wider_than_the_former_one_is_noticed() {
    let goals = goals::of_inside();
    let lent = |against, list| Inside {
        against,
        elimination: None,
        list,
    };
    let mut empty = list(&[1]);
    empty.lent.bounds = vec![5, 5];
    let ways = [Against::BeforeA4, Against::Ordinary];
    for against in ways {
        assert_compared(&goals, &[lent(against, empty.clone())], &CHANGES[..1]);
    }
    let eliminated = [[1_000_000, 0], [0, 0], [1, LIMIT], [1, 0]].map(|[pivot, below]| {
        let mut system = identity(2);
        system.set_a(1, 1, Interval::point(pivot));
        system.set_a(2, 1, Interval::point(below));
        Inside {
            against: Against::BeforeA4,
            elimination: Some(Call::Eliminate),
            list: SweepList::new(Case::new(&system), &[2]),
        }
    });
    let mut swept = list(&[3, 0, 100]);
    let former = lent(Against::BeforeA4, swept.clone());
    let trials = [&[former], &eliminated[..]].concat();
    let changes = [&CHANGES[..2], &CHANGES[7..]].concat();
    assert_compared(&goals, &trials, &changes);
    // Without a share both calls leave the same box, so that a wider one shows.
    swept.lent.matrix.fill(0);
    let changes = [&CHANGES[..3], &CHANGES[7..]].concat();
    let ordinary = lent(Against::Ordinary, swept);
    assert_compared(&goals::of_symmetric(), &[ordinary], &changes);
}

/// Each call, refused and not. Without a weighing the symmetric call comes last.
#[test]
fn what_half_rows_leave_is_compared() {
    let goals = goals::of_half_rows();
    let [load, up, down] = [HalfCall::Load, HalfCall::Up, HalfCall::Down];
    let narrow = |vat, lo| HalfCall::Narrow(vat, Interval::new(lo, 99));
    let mut list = half_list(&[up, load, up, narrow(1, 2), down, narrow(1, 60)]);
    list.calls
        .extend([(down, HALF_LENGTH), (load, HALF_LENGTH + 1)]);
    let changes = [&CHANGES[..3], &CHANGES[7..]].concat();
    assert_compared(&goals, &[list], &changes);
    assert_compared(&goals, &[half_list(&[load])], &CHANGES);
    let (change, calls) = (CHANGES[8], Cell::new(3));
    let passes = [half_list(&[load, up, down])].into_iter();
    let found = compare(goals, passes, 9, &Changed { change, calls });
    assert!(found.unwrap_err().contains("than the symmetric call"));
}

/// Done, spent and refused; the call from the square comes second.
#[test]
fn what_calls_from_a_list_leave_is_compared() {
    let goals = goals::of_transfers();
    let [there, back] = Pass::ALL.map(|pass| ListCall::Sweep(pass, 3));
    let mut trials = [ListCall::Eliminate, there, back, there].map(listed);
    trials[3].lent.right_side = vec![1, 0];
    for trial in trials {
        assert_compared(&goals, &[trial.clone()], &CHANGES);
        for change in [&CHANGES[..3], &CHANGES[7..]].concat() {
            let (calls, trial) = (Cell::new(1), iter::once(trial.clone()));
            let found = compare(goals.clone(), trial, 9, &Changed { change, calls });
            assert!(found.unwrap_err().contains("from the square"));
        }
    }
}

#[test]
fn a_wrong_length_of_the_sheet_is_expected_as_the_call_answers_it() {
    let mut case = TextCase::new(INPUT.to_vec());
    case.out.truncate(7);
    let tally = compare(goals::of_report(), [case].into_iter(), 9, &Reference);
    assert_eq!(tally.unwrap().calls(), 1);
}

/// A call gets the box that the one before left: 100, 51, 27 units.
#[test]
fn a_list_goes_on_with_its_box() {
    let goals = Tally::new(goals::of_sweeps()).unreached();
    let tally = compare(
        goals::of_sweeps(),
        [list(&[1, 0, 1, 10_001, 5])].into_iter(),
        9,
        &Reference,
    );
    let unreached = tally.unwrap().unreached();
    for reached in [
        "sweep: 0, 9 or 7 on a box that the same call has written",
        "sweep: 9 for n 1",
    ] {
        assert!(goals.contains(&reached.to_string()), "{reached}");
        assert!(!unreached.iter().any(|goal| goal == reached), "{reached}");
    }
}

#[test]
fn a_lost_solution_is_reported() {
    let mut wrong = list(&[100]);
    wrong.solution = Some(Solution {
        numerators: vec![99],
        denominator: 1,
    });
    let lists = [wrong.clone()].into_iter();
    let text = compare(goals::of_sweeps(), lists, 9, &Reference).unwrap_err();
    assert!(text.contains("is lost"), "{text}");
    let mut halves = half_list(&[HalfCall::Load, HalfCall::Up]);
    halves.solution = wrong.solution.clone();
    let text = compare(goals::of_half_rows(), iter::once(halves), 9, &Reference).unwrap_err();
    assert!(text.contains("is lost"), "{text}");
    for call in [ListCall::Eliminate, ListCall::Sweep(Pass::There, 100)] {
        let mut trial = listed(call);
        trial.solution = wrong.solution.clone();
        let text = compare(goals::of_transfers(), iter::once(trial), 9, &Reference).unwrap_err();
        assert!(text.contains("is lost"), "{text}");
    }
    let start = [StartBox(wrong)].into_iter();
    let text = compare(goals::of_start_box(), start, 9, &Reference).unwrap_err();
    assert!(text.contains("does not lie in the box"), "{text}");
}

#[test]
fn a_difference_names_what_differs() {
    let side = |change| Changed {
        change,
        calls: Cell::new(0),
    };
    let elimination = Elimination {
        call: Call::Eliminate,
        lent: Case::new(&identity(1)),
    };
    let goals = goals::of_elimination(Call::Eliminate);
    let found = compare(goals, [elimination].into_iter(), 1, &side(CHANGES[7])).unwrap_err();
    for part in [
        "number 0 of the box",
        "reference: 1000000",
        "archive:   999999",
    ] {
        assert!(found.contains(part), "{found}");
    }
    assert!(!found.contains("wrote past"), "{found}");
    let text = [TextCase::new(INPUT.to_vec())].into_iter();
    let found = compare(goals::of_report(), text, 1, &side(CHANGES[5])).unwrap_err();
    for part in ["byte 0 of the sheet", "W1;V2\\n", "3000000:4000000"] {
        assert!(found.contains(part), "{found}");
    }
    let one = [search(2)].into_iter();
    let found = compare(goals::of_search(), one, 1, &side(CHANGES[0])).unwrap_err();
    for part in ["0x3b from 2 on, in 5", "reference: 2", "archive:   3"] {
        assert!(found.contains(part), "{found}");
    }
}

#[test]
fn what_was_not_reached_is_named() {
    let mut tally = Tally::new(vec![Goal::once("a"), Goal::at("b", 2..=4)]);
    assert_eq!(tally.unreached(), ["a", "b 2", "b 3", "b 4"]);
    tally.count(0);
    tally.count(9);
    tally.reach("b", 3);
    tally.reach("b", 3);
    tally.reach("a", 0);
    assert_eq!(tally.unreached(), ["b 2", "b 4"]);
    assert_eq!(tally.calls(), 2);
    assert_eq!(tally.report(), "0: 1, 9: 1\n  a: 1\n  b 2 to 4: 0, 2, 0");
}
