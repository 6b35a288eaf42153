//! Comparing start boxes.

use super::goals::{self, stopped, ABOUT_ONE};
use super::lent::difference;
use super::{Tally, Trial};
use crate::reference::{started, sums, Sums, System, LIMIT};
use crate::side::{Reference, Side};
use crate::sweep_list::SweepList;

/// A start box call and, if a solution is known, sweep calls on the box that it
/// writes. What the list's own box holds is not read.
#[derive(Clone, Debug, PartialEq, Eq)]
pub struct StartBox(pub SweepList);

impl Trial for StartBox {
    fn compare(&self, side: &impl Side, tally: &mut Tally) -> Result<(), String> {
        let StartBox(list) = self;
        let lent = &list.lent;
        let expected = lent.answer(|n, slices| Reference.start_box(n, slices));
        let given = lent.answer(|n, slices| side.start_box(n, slices));
        if expected != given {
            return Err(difference("start_box", lent, &expected, &given));
        }
        tally.count(expected.outcome.number);
        let balance = System::read(lent.n, &lent.matrix, &lent.right_side, lent.bounds.len());
        let end = balance.and_then(|balance| {
            reach_sums(tally, &balance);
            started(&balance)
        });
        let by = match end {
            Ok((by, _)) => by,
            Err(stop) => {
                let (goal, place) = stopped(lent.n, stop);
                tally.reach(goal, place);
                return Ok(());
            }
        };
        let mut swept = list.clone();
        swept.lent.bounds = given.bounds.inside().to_vec();
        reach(tally, by, &swept);
        match swept.solution {
            Some(_) if !swept.holds_solution(&swept.lent.bounds) => {
                let head = "start_box: a solution does not lie in the box";
                Err(difference(head, lent, &expected, &given))
            }
            Some(_) => swept.compare(side, &mut Tally::new(goals::of_sweeps())),
            None => Ok(()),
        }
    }
}

/// Counts what an accepted start box reached.
fn reach(tally: &mut Tally, by: Sums, list: &SweepList) {
    let [accepted, solved] = match by {
        Sums::Rows => ["0 by rows for n", "0 by rows with a known solution"],
        Sums::Columns => ["0 by columns for n", "0 by columns with a known solution"],
    };
    tally.reach(accepted, list.lent.n);
    if list.solution.is_some() {
        tally.reach(solved, 0);
    }
    for (place, limit) in [-LIMIT, LIMIT].iter().enumerate() {
        if list.lent.bounds.contains(limit) {
            tally.reach("0 with an end at the lower or upper limit", place);
        }
    }
}

/// Column sums count only where they are asked for.
fn reach_sums(tally: &mut Tally, balance: &System) {
    let [rows, columns] = sums(balance).map(|sums| sums.into_iter().fold(0, i128::max) as usize);
    if ABOUT_ONE.contains(&rows) {
        tally.reach("a greatest row sum of", rows);
    }
    if rows > *ABOUT_ONE.start() && ABOUT_ONE.contains(&columns) {
        tally.reach("a greatest column sum, a row failing, of", columns);
    }
}
