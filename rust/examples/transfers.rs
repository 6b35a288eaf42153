//! A list of transfers in place of the matrix, from Rust.
//!
//! Half of what passes through V1 goes on into V2, at most half of V2 returns
//! to V1, and V1 gets three tonnes. V3 to V32 get a third of what passes
//! through the vat before. All other shares are 0 and need not be listed.

use kifwaleb::{eliminate_transfers, sweep_transfers, Outcome, Refusal, Transfer};

const VATS: usize = 32;

/// The receiving vat, the giving vat, and the share in millionths, lower then
/// upper. They come by receiving and then by giving vat.
fn transfers() -> Vec<Transfer> {
    let share = |receiver, giver, lo, hi| Transfer {
        receiver,
        giver,
        lo,
        hi,
    };
    let loops = [share(1, 2, 0, 500_000), share(2, 1, 500_000, 500_000)];
    let thirds = (3..=VATS as i64).map(|vat| share(vat, vat - 1, 333_333, 333_334));
    loops.into_iter().chain(thirds).collect()
}

/// How a call that was not refused ended.
fn ending(outcome: Outcome) -> Result<&'static str, Refusal> {
    match outcome {
        Outcome::Done => Ok("settled"),
        Outcome::Spent => Ok("spent"),
        Outcome::Refused(refusal) => Err(refusal),
    }
}

fn main() -> Result<(), Refusal> {
    let transfers = transfers();
    println!("transfers: {}", transfers.len());
    // To each vat from the farm, lower then upper, in grams.
    let mut deliveries = [0; 2 * VATS];
    deliveries[..2].fill(3_000_000);

    let mut bounds = [0; 2 * VATS];
    ending(eliminate_transfers(
        VATS,
        &transfers,
        &deliveries,
        &mut bounds,
    ))?;
    let swept = sweep_transfers(VATS, &transfers, &deliveries, &mut bounds, 100);
    println!("sweeps: {} {}", ending(swept.outcome)?, swept.count);
    for (vat, ends) in (1..).zip(bounds.chunks(2)).take(4) {
        println!("V{vat}: {} to {} g", ends[0], ends[1]);
    }
    Ok(())
}
