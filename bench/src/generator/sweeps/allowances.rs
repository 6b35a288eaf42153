//! Which calls a list has, and the numbers of sweeps allowed.

use crate::generator::Random;
use crate::reference::{Pass, System, MOST_SWEEPS};
use crate::sweep_list::SweepCall;

/// Refused numbers. Cut to fewer bits, the far ones would pass for the near.
#[rustfmt::skip]
pub const REFUSED: [usize; 14] = [
    0, 10_001, 10_002, 20_000, 1 << 16, (1 << 16) + 1, (1 << 32) - 1, 1 << 32, (1 << 32) + 1,
    (1 << 32) + 10_000, (1 << 63) - 1, 1 << 63, (1 << 63) + 1, usize::MAX,
];

/// So many products in one call take little time.
const PRODUCTS: usize = 20_000;

/// Often the smallest, now and then the greatest.
const ACCEPTED: [usize; 16] = [
    1, 1, 1, 2, 2, 3, 4, 5, 8, 13, 30, 60, 100, 1_000, 9_999, 10_000,
];

/// One list of calls, of either kind.
pub fn for_list(random: &mut Random, balance: &System) -> Vec<SweepCall> {
    let calls = random.pick(&[1, 1, 1, 2, 2, 3, 4, 6]);
    let call = |_| SweepCall {
        pass: random.pick(&Pass::ALL),
        allowed: for_call(random, balance),
    };
    (0..calls).map(call).collect()
}

fn for_call(random: &mut Random, balance: &System) -> usize {
    if random.once_in(12) {
        return random.pick(&REFUSED);
    }
    let accepted = if random.once_in(4) {
        random.between(1, MOST_SWEEPS as i64) as usize
    } else {
        random.pick(&ACCEPTED)
    };
    if random.once_in(20) && settles_soon(balance) {
        return accepted;
    }
    let n = balance.size();
    accepted.min((PRODUCTS / (n * n)).clamp(1, MOST_SWEEPS))
}

/// True if every row of magnitudes comes to at most 0.9.
fn settles_soon(balance: &System) -> bool {
    let n = balance.size();
    (1..=n).all(|i| {
        let row = (1..=n).map(|j| balance.a(i, j));
        let magnitudes = row.map(|share| share.lo.abs().max(share.hi.abs()));
        magnitudes.sum::<i64>() <= 900_000
    })
}
