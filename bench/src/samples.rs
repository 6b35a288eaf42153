//! The samples of the documents, counted in units: a file of cases, and the
//! lines that the documents write down for them.

use crate::case::Case;
use crate::case_file::{entries, lines, Entry};
use crate::reference::{Call, Interval, System};
use crate::side::Side;

const CASES: &[u8] = include_bytes!("../samples/cases");
const LINES: &str = include_str!("../samples/lines");

/// The program's input and output.
pub const INPUT: &[u8] = b"\
V1;V2
0:0;0:500000
500000:500000;0:0
3000000:3000000;0:0
";
pub const OUTPUT: &[u8] = b"\
V1;V2
3000000:4000000;1500000:2000000
settled 1
";

/// The lines that a side does not give, each with what it gives.
pub fn unmet(side: &impl Side) -> Vec<String> {
    let given = lines(&entries(CASES), side);
    let both = LINES.lines().zip(&given);
    let unmet = both.filter(|(written, given)| written != given);
    unmet
        .map(|(written, given)| format!("document: {written}\n  given:    {given}"))
        .collect()
}

/// The calls of the samples on systems, each with what it is lent: an
/// elimination, or the sweeps allowed.
pub fn system_calls() -> Vec<(Entry, Case)> {
    let mut lent = None;
    let mut calls = Vec::new();
    for entry in entries(CASES) {
        match (entry, &lent) {
            (Entry::System(system), _) => lent = Some(system),
            (call @ (Entry::Eliminate(_) | Entry::Sweep(..)), Some(lent)) => {
                calls.push((call, lent.clone()));
            }
            _ => (),
        }
    }
    calls
}

/// The systems A·x = f of three equations.
pub fn three_equations() -> impl Iterator<Item = System> {
    let calls = system_calls().into_iter();
    let three = calls
        .filter(|(call, lent)| *call == Entry::Eliminate(Call::Eliminate) && lent.n == 3)
        .map(|(_, lent)| System::read(3, &lent.matrix, &lent.right_side, 6));
    three.map(|system| system.expect("the samples pass every test"))
}

/// The balance of the program's input over a start box.
pub fn program_input(start: [i64; 4]) -> Case {
    let mut balance = System::noughts(2);
    balance.set_a(1, 2, Interval::new(0, 500_000));
    balance.set_a(2, 1, Interval::point(500_000));
    balance.set_f(1, Interval::point(3_000_000));
    Case {
        bounds: start.to_vec(),
        ..Case::new(&balance)
    }
}

/// Ones on the diagonal, noughts elsewhere, f(i) = i. Any number of equations.
pub fn identity(n: usize) -> System {
    let mut system = System::noughts(n);
    for i in 1..=n {
        system.set_a(i, i, Interval::point(1_000_000));
        system.set_f(i, Interval::point(i as i64 * 1_000_000));
    }
    system
}

#[cfg(test)]
mod tests {
    use super::*;
    use crate::archive::Archive;
    use crate::case::Slices;
    use crate::reference::{calculate, HalfCall, ListCall, Operation, Outcome, Pass};
    use crate::side::{Flat, Reference};

    #[test]
    fn both_sides_give_every_written_answer() {
        assert_eq!(unmet(&Reference), [""; 0]);
        assert_eq!(unmet(&Archive), [""; 0]);
        assert_eq!(
            lines(&entries(CASES), &Reference).len(),
            LINES.lines().count()
        );
    }

    /// Answers that every call could be given.
    struct Nothing;

    impl Side for Nothing {
        fn step(&self, _: Operation, _: Interval, _: Interval) -> Flat {
            (0, 0, 0, 0)
        }
        fn eliminate(&self, _: Call, _: usize, _: Slices) -> Outcome {
            Outcome::DONE
        }
        fn start_box(&self, _: usize, _: Slices) -> Outcome {
            Outcome::DONE
        }
        fn sweep(&self, _: Pass, _: usize, _: Slices, _: usize) -> Outcome {
            Outcome::DONE
        }
        fn transfers(&self, _: ListCall, _: usize, _: Slices) -> Outcome {
            Outcome::DONE
        }
        fn half_rows(&self, _: HalfCall, _: &mut [i64], _: usize, _: Slices) -> Outcome {
            Outcome::DONE
        }
        fn narrower<'a>(&self, _: usize, _: &'a [i64], _: &'a [i64]) -> &'a [i64] {
            &[]
        }
        fn report(&self, _: &mut [u8], _: &mut [u8]) -> Outcome {
            Outcome::DONE
        }
        fn first_byte(&self, _: &mut [u8], _: usize, _: u8) -> usize {
            0
        }
    }

    /// All but the two lines about numbers and names.
    #[test]
    fn wrong_answers_are_reported() {
        assert_eq!(unmet(&Nothing).len(), LINES.lines().count() - 2);
    }

    #[test]
    fn the_pivots_of_example_4_1() {
        let [arrow, exchanged]: [System; 2] = {
            let mut three = three_equations();
            [three.next(), three.next()].map(Option::unwrap)
        };
        let copy = calculate(Call::Eliminate, arrow).copy.unwrap();
        assert_eq!(copy.a(3, 3), Interval::new(-7_500_000, -500_000));
        let trace = calculate(Call::Eliminate, exchanged);
        assert_eq!(trace.swaps, [2]);
        let pivot = trace.copy.unwrap().a(3, 3);
        assert_eq!(pivot, Interval::new(333_332, 5_000_000));
    }
}
