//! Bounds where elimination is refused, from Rust.
//!
//! Half of what passes through V1 goes on into V2, at most half of V2 returns
//! to V1, and V1 gets three tonnes. V3, V4 and V5 pass cream round: each gives a
//! third to each of the three, itself included. In millionths a third is
//! 333,333, so that they lose next to nothing, and elimination, which rounds,
//! cannot tell it from nothing. A start box needs no elimination, and sweeps
//! tighten it: all of these boxes hold the true weights. Of V3 to V5, which the
//! farm's milk does not reach, the last one says only that less than three
//! tonnes pass.

use kifwaleb::{eliminate_balance, narrower, start_box, sweep, Outcome, Refusal};

const VATS: usize = 5;

const T: i64 = 333_333;

/// Row i, column j: the share of vat j that goes on into vat i, lower then
/// upper, in millionths.
const SHARES: [i64; 2 * VATS * VATS] = [
    0, 0, 0, 500_000, 0, 0, 0, 0, 0, 0, //
    500_000, 500_000, 0, 0, 0, 0, 0, 0, 0, 0, //
    0, 0, 0, 0, T, T, T, T, T, T, //
    0, 0, 0, 0, T, T, T, T, T, T, //
    0, 0, 0, 0, T, T, T, T, T, T,
];

/// To each vat from the farm, lower then upper, in grams.
const DELIVERIES: [i64; 2 * VATS] = [3_000_000, 3_000_000, 0, 0, 0, 0, 0, 0, 0, 0];

fn print_bounds(bounds: &[i64]) {
    for (vat, ends) in (1..).zip(bounds.chunks(2)) {
        println!("V{vat}: {} to {} g", ends[0], ends[1]);
    }
}

/// How a call that was not refused ended.
fn ending(outcome: Outcome) -> Result<&'static str, Refusal> {
    match outcome {
        Outcome::Done => Ok("settled"),
        Outcome::Spent => Ok("spent"),
        Outcome::Refused(refusal) => Err(refusal),
    }
}

fn main() -> Result<(), Refusal> {
    let mut started = [0; 2 * VATS];
    match ending(eliminate_balance(VATS, &SHARES, &DELIVERIES, &mut started)) {
        Err(Refusal::ContainsZero(step)) => println!("elimination: no row serves at step {step}"),
        other => panic!("elimination, otherwise than foreseen: {other:?}"),
    }

    // Every solution lies in this box, too.
    ending(start_box(VATS, &SHARES, &DELIVERIES, &mut started))?;
    println!("start box");
    print_bounds(&started);

    // What is known without any calculation: at most 20 tonnes pass through a
    // vat. Sweeps begin with the narrower of two boxes that hold the weights.
    let known = [0, 20_000_000].repeat(VATS);
    let chosen = narrower(VATS, &started, &known);
    let name = match std::ptr::eq(chosen, &started) {
        true => "the start box",
        false => "what is known",
    };
    println!("narrower: {name}");
    let mut bounds = chosen.to_vec();
    let swept = sweep(VATS, &SHARES, &DELIVERIES, &mut bounds, 100);
    println!("sweeps: {} {}", ending(swept.outcome)?, swept.count);
    print_bounds(&bounds);
    Ok(())
}
