//! Lists of operations on half rows.

use super::sweeps::starts::spread;
use super::systems::faults::FAULTY_ENDS;
use super::{random_lists_up_to, Random};
use crate::case::Case;
use crate::comparison::{HalfList, MOST_LENT};
use crate::reference::{half_rows, HalfCall, Interval, Loaded, EMPTY, HALF_LENGTH, LIMIT};
use crate::sweep_list::Solution;
use std::iter;

/// Wrong lengths of a state.
const LENGTHS: [usize; 6] = [0, 1, 66, HALF_LENGTH - 1, HALF_LENGTH + 1, MOST_LENT];

/// Without end, at most so many vats, always the same for the same seed. Balances, start
/// boxes and known solutions are those of the sweeps; some fail a test.
pub fn half_lists_up_to(most: usize, seed: u64) -> impl Iterator<Item = HalfList> {
    let mut random = Random::new(seed);
    let mut swept = random_lists_up_to(most, seed);
    iter::from_fn(move || {
        let first = swept.next()?;
        let (mut loads, mut solution) = (vec![first.lent], first.solution);
        if random.once_in(3) {
            loads.push(swept.next()?.lent);
            solution = None;
        }
        let calls = calls(&mut random, &loads, solution.as_ref());
        Some(HalfList {
            loads,
            calls,
            solution,
        })
    })
}

/// Each call is drawn for the state that the ones before it leave. After a half pass that
/// is empty most lists load again, since it stays so.
fn calls(
    random: &mut Random,
    loads: &[Case],
    solution: Option<&Solution>,
) -> Vec<(HalfCall, usize)> {
    let mut state = [0; MOST_LENT];
    let (mut loads, nothing) = (loads.iter().cycle(), Case::default());
    let (weighs, count) = (!random.once_in(3), random.pick(&[3, 6, 12, 30, 80]));
    let mut number = EMPTY;
    let draw = |_| {
        let loaded = Loaded::of(&state[..HALF_LENGTH]);
        let call = match (random.below(16), loaded) {
            (0, _) => HalfCall::Load,
            (1, _) => HalfCall::Up,
            (2, _) => HalfCall::Down,
            (3, None) => HalfCall::Narrow(random.pick(&[0, 1, 33]), random.pick(&FAULTY_ENDS)),
            (3..=8, Some(loaded)) if weighs => narrowing(random, &loaded, solution),
            (9..=12, _) if number == EMPTY => HalfCall::Load,
            (_, loaded) => loaded.map_or(HalfCall::Load, |loaded| loaded.due),
        };
        let length = match random.below(24) {
            0 => random.pick(&LENGTHS),
            _ => HALF_LENGTH,
        };
        let lent = match call {
            HalfCall::Load => loads.next().unwrap_or(&nothing),
            _ => &nothing,
        };
        let slices = [&lent.matrix[..], &lent.right_side, &lent.bounds];
        number = half_rows(call, &mut state[..length], lent.n, slices).number;
        (call, length)
    };
    (0..count).map(draw).collect()
}

/// Mostly of a vat that there is, by a part of its box, around the solution if one is
/// known. Others touch the box, miss it by a unit, hold it or are none.
fn narrowing(random: &mut Random, loaded: &Loaded, solution: Option<&Solution>) -> HalfCall {
    let n = loaded.bounds.len();
    let any = 1 + random.below(n as u64) as usize;
    let none = [0, n + 1, n + 2, (1 << 32) + 1, (1 << 63) + 1, usize::MAX];
    let vat = match random.below(12) {
        0 => random.pick(&none),
        1 | 2 => random.pick(&[1, n]),
        _ => any,
    };
    let own = loaded.bounds[vat.wrapping_sub(1) % n];
    let Interval { lo, hi } = own;
    let reach = random.pick(&[0, 10, LIMIT]);
    let [below, above] = [(); 2].map(|_| random.magnitude(reach));
    let point = Interval::point(lo + random.between(0, hi - lo));
    let around = solution.and_then(|solution| solution.around(vat));
    let held = around
        .filter(|held| lo <= held.lo && held.hi <= hi)
        .unwrap_or(point);
    let weighed = match random.below(if around.is_some() { 24 } else { 12 }) {
        0 => random.pick(&FAULTY_ENDS),
        1 => spread(own, below, above),
        2 => spread(Interval::point(hi), 0, above),
        3 => spread(Interval::point(lo), below, 0),
        4 => Interval::new(hi + 1, hi + 1 + above),
        5 => Interval::new(lo - 1 - below, lo - 1),
        6 => Interval::point(random.pick(&[lo, hi])),
        _ => Interval::new(
            lo + random.magnitude(held.lo - lo),
            hi - random.magnitude(hi - held.hi),
        ),
    };
    HalfCall::Narrow(vat, weighed)
}

#[cfg(test)]
mod tests {
    use super::*;
    use crate::comparison::{compare, goals};
    use crate::reference::MOST_EQUATIONS;
    use crate::side::Reference;

    #[test]
    fn everything_is_reached() {
        let lists = half_lists_up_to(MOST_EQUATIONS, 14);
        let tally = compare(goals::of_half_rows(), lists, 300_000, &Reference).unwrap();
        assert_eq!(tally.unreached(), [""; 0]);
    }
}
