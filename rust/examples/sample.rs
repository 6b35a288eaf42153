//! The sample of the vat balance, from Rust.
//!
//! Half of what passes through V1 goes on into V2, at most half of V2 returns
//! to V1, and V1 gets three tonnes. How much of the farm's milk passes through
//! each?

use kifwaleb::{eliminate_balance, report, sweep, Outcome, Refusal, SHEET_LENGTH};

const VATS: usize = 2;

/// Row i, column j: the share of vat j that goes on into vat i, lower then
/// upper, in millionths.
const SHARES: [i64; 2 * VATS * VATS] = [
    0, 0, 0, 500_000, //
    500_000, 500_000, 0, 0,
];

/// To each vat from the farm, lower then upper, in grams.
const DELIVERIES: [i64; 2 * VATS] = [3_000_000, 3_000_000, 0, 0];

/// The same as a cellar text.
const TEXT: &[u8] = b"\
V1;V2
0:0;0:500000
500000:500000;0:0
3000000:3000000;0:0
";

fn print_bounds(bounds: &[i64]) {
    for (vat, ends) in (1..).zip(bounds.chunks(2)) {
        println!("V{vat}: {} to {} g", ends[0], ends[1]);
    }
}

/// How a call that was not refused ended.
fn ending(outcome: Outcome) -> Result<&'static str, Refusal> {
    match outcome {
        Outcome::Done => Ok("settled"),
        Outcome::Spent => Ok("spent"),
        Outcome::Refused(refusal) => Err(refusal),
    }
}

fn main() -> Result<(), Refusal> {
    // The first bounds.
    let mut bounds = [0; 2 * VATS];
    ending(eliminate_balance(VATS, &SHARES, &DELIVERIES, &mut bounds))?;
    println!("elimination");
    print_bounds(&bounds);

    // Sweeps tighten them, in place. 'Spent' is no refusal.
    let swept = sweep(VATS, &SHARES, &DELIVERIES, &mut bounds, 100);
    println!("sweeps: {} {}", ending(swept.outcome)?, swept.count);
    print_bounds(&bounds);

    // All of it at once, from a text to a sheet, which says itself whether the
    // sweeps settled.
    let mut sheet = [0; SHEET_LENGTH];
    let written = report(TEXT, &mut sheet);
    ending(written.outcome)?;
    println!("sheet");
    print!("{}", String::from_utf8_lossy(&sheet[..written.count]));
    Ok(())
}
