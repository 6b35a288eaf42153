//! Calls from a list of transfers.

use super::systems::faults::{set_interval, FAULTY_ENDS};
use super::{random_cases_up_to, random_lists_up_to, rows, Random};
use crate::case::Case;
use crate::comparison::{Transfers, SHORT};
use crate::reference::{Call, ListCall, Pass, LIMIT, SCALE};
use crate::reference::{MOST_EQUATIONS, MOST_TRANSFERS, TRANSFER};
use crate::samples::identity;
use crate::sweep_list::SweepList;
use std::iter;

/// The three calls, with sweeps enough to settle a good list's box.
const CALLS: [ListCall; 3] = [
    ListCall::Eliminate,
    ListCall::Sweep(Pass::There, 40),
    ListCall::Sweep(Pass::ThereAndBack, 40),
];

/// A receiving vat that is none, a giving vat, the vats of the transfer before, the two in
/// each other's place, and faulty ends.
const FAULTS: usize = 5;

/// A share that reaches so far can change by itself how its list is swept.
const ODD_ENDS: [i64; 7] = [-1, -SHORT, -SHORT - 1, -LIMIT, SHORT, SHORT + 1, LIMIT];

/// First good lists, every fault, odd shares and far sums, then random lists of at most so many
/// vats without end, always the same for the same seed.
pub fn transfers_up_to(most: usize, seed: u64) -> impl Iterator<Item = Transfers> {
    let whole = (1..=MOST_EQUATIONS).flat_map(|n| [good(n, n * n), good(n, 0)]);
    let edges = whole.chain(long()).chain(faulty());
    let odd = (1..=MOST_EQUATIONS).flat_map(|n| ODD_ENDS.map(|end| odd_shares(n, end)));
    let far = (1..=MOST_EQUATIONS).flat_map(far_sums);
    let edges = edges.flat_map(in_each_way).chain(odd.flatten()).chain(far);
    let edges = edges.flat_map(|lent| {
        CALLS.map(|call| Transfers {
            call,
            lent: lent.clone(),
            solution: None,
        })
    });
    let mut random = Random::new(seed);
    let mut lists = random_lists_up_to(most, seed);
    let mut cases = random_cases_up_to(most, Call::EliminateBalance, seed);
    edges.chain(iter::from_fn(move || {
        let drawn = match random.below(4) {
            0 => SweepList::new(cases.next()?, &[]),
            _ => lists.next()?,
        };
        Some(listed(&mut random, drawn))
    }))
}

/// With the first transfers, so many, of all that n vats can have.
fn good(n: usize, count: usize) -> Case {
    let vats = (0..count).map(|place| [1 + place / n, 1 + place % n].map(|vat| vat as i64));
    let share = 500_000 / n as i64;
    Case {
        matrix: vats.flat_map(|[i, j]| [i, j, -1, share]).collect(),
        bounds: [0, 90_000_000].repeat(n),
        ..Case::new(&identity(n))
    }
}

/// With no share below 0 or with all of them reaching below 0, near enough for sums in one
/// word or not: lists are swept in four ways. What is faulty stays so.
fn in_each_way(lent: Case) -> [Case; 4] {
    [(0, 0), (-1, 0), (0, SHORT + 1), (-1, SHORT + 1)].map(|(lower, upper)| {
        let mut lent = lent.clone();
        for transfer in lent.matrix.chunks_exact_mut(TRANSFER) {
            if transfer[2] == -1 {
                transfer[2] = lower;
                transfer[3] = transfer[3].max(upper);
            }
        }
        lent
    })
}

/// Full lists with one odd share, which is the first, the last of a row or the last of all,
/// beside modest shares or beside the farthest for one word; then with odd shares only. Wide
/// boxes take the sums as far as can be.
fn odd_shares(n: usize, end: i64) -> impl Iterator<Item = Case> {
    let all = n * n;
    let [modest, wide] = [[0, 90_000_000], [-LIMIT, LIMIT]];
    let others = [(0, modest), (end.signum() * SHORT, wide)];
    let single = [0, n - 1, all - 1].map(|place| others.map(|with| (place..place + 1, with)));
    let every = [wide, [0, LIMIT], [-LIMIT, 0]].map(|ends| (0..all, (0, ends)));
    let both = single.into_iter().flatten().chain(every);
    both.map(move |(places, (other, ends))| {
        let [mut lent, ..] = in_each_way(good(n, all));
        for (place, transfer) in lent.matrix.chunks_exact_mut(TRANSFER).enumerate() {
            reach_to(transfer, if places.contains(&place) { end } else { other });
        }
        lent.bounds = ends.repeat(n);
        lent
    })
}

/// What vat 1 gets comes to a multiple of 2^63 parts and a unit at its upper end, with no share
/// below 0; or the multiple is taken away again. Without the multiple it would be a unit.
fn far_sums(n: usize) -> impl Iterator<Item = Case> {
    let both = (1..=13).flat_map(|multiple| [false, true].map(|away| (multiple << 63, away)));
    both.filter_map(move |(far, away): (i128, bool)| {
        let back = if away { -far } else { 0 };
        let row = [far + SCALE, back].map(rows::coming_to).concat();
        if n <= row.len() {
            return None;
        }
        let mut lent = good(n, 0);
        for (vat, (share, weight)) in (1..).zip(row) {
            let [shares, weights] = [share, weight].map(|end| [if away { end } else { 0 }, end]);
            lent.matrix.extend([1, vat as i64 + 1]);
            lent.matrix.extend(shares);
            lent.bounds[2 * vat..][..2].copy_from_slice(&weights);
        }
        lent.right_side.clone_from(&lent.bounds);
        lent.right_side[..2].fill(0);
        Some(lent)
    })
}

/// Makes the share of a transfer reach so far.
fn reach_to(transfer: &mut [i64], end: i64) {
    transfer[2] = transfer[2].min(end);
    transfer[3] = transfer[3].max(end);
}

/// As many transfers as there may be, and one more.
fn long() -> impl Iterator<Item = Case> {
    [1, 2, 32].into_iter().flat_map(|n: usize| {
        [MOST_TRANSFERS, MOST_TRANSFERS + 1].map(|count| {
            let mut lent = good(n, n * n);
            lengthen(&mut lent, count);
            lent
        })
    })
}

/// With its last transfer again and again.
fn lengthen(lent: &mut Case, count: usize) {
    let listed = lent.matrix.len();
    let last = lent.matrix[listed.saturating_sub(TRANSFER)..].to_vec();
    let missing = count.saturating_sub(listed / TRANSFER);
    lent.matrix.extend(last.repeat(missing));
}

/// Every fault at every place of full lists, and of small ones every second fault behind it.
fn faulty() -> impl Iterator<Item = Case> {
    [1, 2, 3, 32].into_iter().flat_map(|n: usize| {
        let seconds = if n < 32 { 0..=FAULTS } else { FAULTS..=FAULTS };
        let places =
            (0..n * n + 2 * n - 1).flat_map(|place| (0..FAULTS).map(move |kind| (place, kind)));
        let both = places.flat_map(move |first| seconds.clone().map(move |second| (first, second)));
        both.map(move |((place, kind), second)| {
            let mut lent = good(n, n * n);
            spoil(&mut lent, place, kind, place);
            spoil(&mut lent, place + 1, second, place + 3);
            lent
        })
    })
}

/// Outside 1 to n. Cut to fewer bits, the far ones would pass for the near.
#[rustfmt::skip]
fn wrong_vats(n: usize) -> [i64; 8] {
    let n = n.min(99) as i64;
    [0, n + 1, -1, i64::MIN, i64::MAX, (1 << 32) + 1, i64::MIN + 1, -n]
}

/// Makes a fault at a place counted through list, right side and box, if there can be one:
/// past the list only ends are faulty, and the first transfer has none before it. `wrong`
/// chooses among wrong vats and ends.
fn spoil(lent: &mut Case, place: usize, fault: usize, wrong: usize) {
    let count = lent.matrix.len() / TRANSFER;
    let (at, follows) = (TRANSFER * place, (1..count).contains(&place));
    let ends = FAULTY_ENDS[wrong % FAULTY_ENDS.len()];
    match fault {
        0 | 1 if place < count => lent.matrix[at + fault] = wrong_vats(lent.n)[wrong % 8],
        2 if follows => lent.matrix.copy_within(at - TRANSFER..at - 2, at),
        3 if follows => lent.matrix[at - TRANSFER..at + TRANSFER].rotate_left(TRANSFER),
        // Each transfer has its vats before its ends.
        4 if place < count => set_interval(lent, 2 * place + 1, ends),
        4 => set_interval(lent, count + place, ends),
        _ => (),
    }
}

/// From a square. Every third list is then spoiled.
fn listed(random: &mut Random, drawn: SweepList) -> Transfers {
    let (mut lent, mut solution) = (drawn.lent, drawn.solution);
    let call = match drawn.calls.first() {
        Some(call) if !random.once_in(6) => ListCall::Sweep(call.pass, call.allowed),
        _ => ListCall::Eliminate,
    };
    let thin = solution.is_none() && random.once_in(3);
    lent.matrix = list_of(random, &lent.matrix, thin);
    let way = random.below(3);
    if solution.is_none() && way < 2 {
        let most = random.pick(&[SHORT, SHORT, LIMIT]);
        bring_near(random, &mut lent, most, way == 1);
    }
    if random.once_in(3) {
        spoil_some(random, &mut lent);
        solution = None;
    }
    Transfers {
        call,
        lent,
        solution,
    }
}

/// With no share farther than `most`: with the signs as they are, or with no share below 0 nor
/// the box, as in a cellar. Often all shares and boxes are as far as can be, and often one
/// share is odd.
fn bring_near(random: &mut Random, lent: &mut Case, most: i64, signed: bool) {
    let far = random.once_in(4);
    for transfer in lent.matrix.chunks_exact_mut(TRANSFER) {
        for end in &mut transfer[2..] {
            let reach = if far { most } else { end.saturating_abs() };
            let near = end.signum() * reach.min(most);
            *end = if signed { near } else { near.abs() };
        }
        transfer[2..].sort_unstable();
    }
    for end in &mut lent.bounds {
        let wide = if far { end.signum() * LIMIT } else { *end };
        *end = if signed { wide } else { wide.max(0) };
    }
    let count = lent.matrix.len() / TRANSFER;
    if count > 0 && random.once_in(2) {
        let any = random.below(count as u64) as usize;
        let place = random.pick(&[0, any, any, count - 1]);
        reach_to(&mut lent.matrix[TRANSFER * place..], random.pick(&ODD_ENDS));
    }
}

/// Of the noughts all are listed, some or none; if thin, some of the others.
fn list_of(random: &mut Random, matrix: &[i64], thin: bool) -> Vec<i64> {
    // Of a wrong length it is no square, and the list can be any.
    let n = (matrix.len() / 2).isqrt().max(1);
    let noughts = random.pick(&[0, 50, 100]);
    let others = if thin { random.pick(&[5, 30, 60]) } else { 100 };
    let mut list = Vec::new();
    for (place, ends) in matrix.chunks_exact(2).enumerate() {
        let hundredths = if ends == [0, 0] { noughts } else { others };
        if random.below(100) < hundredths {
            let vats = [1 + place / n, 1 + place % n].map(|vat| vat as i64);
            list.extend(vats.iter().chain(ends));
        }
    }
    list
}

/// Up to three faults, mostly in the list.
fn spoil_some(random: &mut Random, lent: &mut Case) {
    if random.once_in(30) {
        lengthen(lent, MOST_TRANSFERS + random.pick(&[0, 0, 1, 1, 900]));
    }
    let count = lent.matrix.len() / TRANSFER;
    let all = count + lent.right_side.len() / 2 + lent.bounds.len() / 2;
    let faults = if all == 0 { 0 } else { random.between(1, 3) };
    for _ in 0..faults {
        let [any, listed] = [all, count.max(1)].map(|most| random.below(most as u64) as usize);
        let place = random.pick(&[any, listed, listed, 0, count.max(1) - 1]);
        let [fault, wrong] = [FAULTS, 24].map(|most| random.below(most as u64) as usize);
        spoil(lent, place, fault, wrong);
    }
}

#[cfg(test)]
mod tests {
    use super::*;
    use crate::comparison::{compare, goals};
    use crate::side::Reference;

    #[test]
    fn everything_is_reached() {
        let trials = transfers_up_to(MOST_EQUATIONS, 15);
        let tally = compare(goals::of_transfers(), trials, 300_000, &Reference).unwrap();
        assert_eq!(tally.unreached(), [""; 0]);
    }
}
