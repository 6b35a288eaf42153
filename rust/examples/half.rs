//! Half passes and a weighing, from Rust.
//!
//! Half of what passes through V1 goes on into V2, at most half of V2 returns
//! to V1, and V1 gets three tonnes. At most ten pass through a vat. After a pass
//! up and one down V2 is weighed; the next pass up takes that on to V1.

use kifwaleb::{HalfRows, Refusal};

const VATS: usize = 2;

/// Row i, column j: the share of vat j that goes on into vat i, lower then
/// upper, in millionths.
const SHARES: [i64; 2 * VATS * VATS] = [
    0, 0, 0, 500_000, //
    500_000, 500_000, 0, 0,
];

/// To each vat from the farm, lower then upper, in grams.
const DELIVERIES: [i64; 2 * VATS] = [3_000_000, 3_000_000, 0, 0];

const KNOWN: [i64; 2 * VATS] = [0, 10_000_000, 0, 10_000_000];

fn print(call: &str, rows: &HalfRows) {
    println!("{call}");
    for (vat, ends) in (1..).zip(rows.bounds().chunks(2)) {
        println!("V{vat}: {} to {} g", ends[0], ends[1]);
    }
}

fn main() -> Result<(), Refusal> {
    let mut rows = HalfRows::load(VATS, &SHARES, &DELIVERIES, &KNOWN)?;
    print("load", &rows);
    rows.up()?;
    print("up", &rows);
    rows.down()?;
    print("down", &rows);

    // The scale says 1.9 tonnes at most.
    rows.narrow(2, 1_000_000, 1_900_000)?;
    print("V2 weighed", &rows);
    rows.up()?;
    print("up", &rows);
    Ok(())
}
