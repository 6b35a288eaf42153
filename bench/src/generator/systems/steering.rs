//! Moving one entry of a system so that one result of its elimination comes
//! to a limit, or a unit past it.

use crate::generator::Random;
use crate::reference::{calculate, numerator, Call, Interval, Rounding};
use crate::reference::{System, WideInterval, LIMIT};

const ONE: i64 = 1_000_000;
const ZERO: Interval = Interval::point(0);

/// Moves an entry, if there is one to move. What stands in the own copy after
/// the calculation shows how far: an entry that is moved by some units moves
/// its later values by as many, until it is a pivot or makes a factor.
pub fn steer(random: &mut Random, system: &mut System) {
    let n = system.size();
    let any_row = row(random, 1, n);
    let lower_row = row(random, 2.min(n), n);
    match random.below(6) {
        0 => to_zero_pivot(random, system, any_row),
        1 => to_great_numerator(random, system, any_row),
        2 => to_great_quotient(random, system, any_row),
        3 if n > 1 => to_great_factor(random, system, lower_row),
        4 if n > 1 => to_great_entry(random, system, lower_row),
        5 if n > 1 => to_great_right_side(random, system, lower_row),
        _ => (),
    }
}

/// Any row from `first` on, the last one more often.
fn row(random: &mut Random, first: usize, n: usize) -> usize {
    if random.once_in(4) {
        n
    } else {
        random.between(first as i64, n as i64) as usize
    }
}

fn copy_of(system: &System) -> System {
    let trace = calculate(Call::Eliminate, system.clone());
    trace.copy.expect("the calculation has a copy")
}

/// The same interval some units further, if it stays in the range.
fn moved(interval: Interval, by: i64) -> Option<Interval> {
    let further = Interval::new(interval.lo + by, interval.hi + by);
    further.is_valid().then_some(further)
}

fn move_a(system: &mut System, i: usize, j: usize, by: i64) {
    if let Some(interval) = moved(system.a(i, j), by) {
        system.set_a(i, j, interval);
    }
}

fn move_f(system: &mut System, i: usize, by: i64) {
    if let Some(interval) = moved(system.f(i), by) {
        system.set_f(i, interval);
    }
}

/// An end of the pivot comes to 0, or misses it by a unit.
fn to_zero_pivot(random: &mut Random, system: &mut System, k: usize) {
    let pivot = copy_of(system).a(k, k);
    let by = random.pick(&[
        -pivot.lo,
        -pivot.hi,
        1 - pivot.lo,
        -1 - pivot.hi,
        -(pivot.lo + pivot.hi) / 2,
    ]);
    move_a(system, k, k, by);
}

/// 0 or 1 unit past the limit.
fn past(random: &mut Random) -> i64 {
    random.between(0, 1)
}

/// The distance of the interval from 0.
fn distance(interval: Interval) -> i64 {
    interval.lo.abs().min(interval.hi.abs())
}

/// The dividend becomes 2000 times the nearest end of the pivot.
fn to_great_factor(random: &mut Random, system: &mut System, i: usize) {
    let k = random.between(1, i as i64 - 1) as usize;
    let copy = copy_of(system);
    let nearest = distance(copy.a(k, k)).min(ONE);
    let dividend = LIMIT / ONE * nearest + past(random);
    let dividend = random.signed(dividend);
    let by = dividend - copy.a(i, k).hi;
    system.set_a(i, k, Interval::point(system.a(i, k).hi));
    move_a(system, i, k, by);
}

/// How far to move so that the end on either side comes to the limit. Only a
/// value that the calculation moved outward can be brought there.
fn to_limit(random: &mut Random, before: Interval, after: Interval) -> i64 {
    let past = past(random);
    let outward = [after.hi - before.hi, before.lo - after.lo];
    let [up, down] = outward.map(|by| by > 0);
    if up && (!down || random.once_in(2)) {
        LIMIT + past - after.hi
    } else {
        -LIMIT - past - after.lo
    }
}

/// On the diagonal, where the value stays as it is, or anywhere.
fn to_great_entry(random: &mut Random, system: &mut System, i: usize) {
    let j = if random.once_in(2) {
        i
    } else {
        random.between(2, system.size() as i64) as usize
    };
    let after = copy_of(system).a(i, j);
    let by = to_limit(random, system.a(i, j), after);
    move_a(system, i, j, by);
}

fn to_great_right_side(random: &mut Random, system: &mut System, i: usize) {
    let after = copy_of(system).f(i);
    let by = to_limit(random, system.f(i), after);
    move_f(system, i, by);
}

/// Rows below i no longer depend on row i, so that f(i) moves only what row i
/// itself comes to.
fn part_below(system: &mut System, i: usize) {
    for lower in i + 1..=system.size() {
        (1..=i).for_each(|j| system.set_a(lower, j, ZERO));
    }
}

/// The numerator and the pivot of row i, if the system is solved.
fn last_division(system: &System, i: usize) -> Option<(WideInterval, Interval)> {
    let trace = calculate(Call::Eliminate, system.clone());
    let (copy, x) = (trace.copy?, trace.end.ok()?);
    Some((numerator(Rounding::Once, &copy, &x, i), copy.a(i, i)))
}

fn to_great_numerator(random: &mut Random, system: &mut System, i: usize) {
    part_below(system, i);
    if let Some((numerator, _)) = last_division(system, i) {
        let past = past(random);
        let by = if random.once_in(2) {
            LIMIT + past - numerator.hi as i64
        } else {
            -LIMIT - past - numerator.lo as i64
        };
        move_f(system, i, by);
    }
}

fn to_great_quotient(random: &mut Random, system: &mut System, i: usize) {
    part_below(system, i);
    if let Some((numerator, pivot)) = last_division(system, i) {
        let dividend = LIMIT / ONE * distance(pivot).min(ONE) + past(random);
        let by = if random.once_in(2) {
            dividend - numerator.hi as i64
        } else {
            -dividend - numerator.lo as i64
        };
        move_f(system, i, by);
    }
}
