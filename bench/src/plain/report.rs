//! The report call. The text is read by the reference's reader, which keeps no
//! account of what it did either.

use super::elimination::eliminate_balance;
use super::sweep::sweep;
use crate::reference::{
    read_text, CellarText, Outcome, Pass, DONE, FAULTY_LENGTH, SHEET_LENGTH, SHEET_SWEEPS, SPENT,
};
use std::io::Write;

/// Writes the sheet for a text at the start of `out` and counts its bytes.
pub fn report(text: &[u8], out: &mut [u8]) -> Outcome {
    match read_text(text) {
        Ok(_) if out.len() != SHEET_LENGTH => Outcome::new(FAULTY_LENGTH, 3),
        Ok(text) => calculated(&text, out),
        Err(fault) => fault.outcome(),
    }
}

fn calculated(text: &CellarText, out: &mut [u8]) -> Outcome {
    let (n, matrix, right_side) = (text.n, &text.matrix, &text.right_side);
    let mut bounds = vec![0; 2 * n];
    let eliminated = eliminate_balance(n, matrix, right_side, &mut bounds);
    if eliminated != Outcome::DONE {
        return eliminated;
    }
    let there = Pass::There;
    let swept = sweep(there, n, matrix, right_side, &mut bounds, SHEET_SWEEPS);
    let word = match swept.number {
        DONE => "settled",
        SPENT => "spent",
        _ => return Outcome::new(swept.number, swept.place),
    };
    let mut rest = &mut *out;
    write_sheet(text, &bounds, word, swept.count, &mut rest).expect("every sheet fits");
    let left = rest.len();
    Outcome::counted(swept.number, 0, (SHEET_LENGTH - left) as u64)
}

fn write_sheet(
    text: &CellarText,
    bounds: &[i64],
    word: &str,
    count: u64,
    out: &mut impl Write,
) -> std::io::Result<()> {
    out.write_all(text.names_line)?;
    for (index, ends) in bounds.chunks_exact(2).enumerate() {
        let before = if index == 0 { '\n' } else { ';' };
        write!(out, "{before}{}:{}", ends[0], ends[1])?;
    }
    writeln!(out, "\n{word} {count}")
}
