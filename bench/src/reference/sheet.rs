//! What the program 'balance' prints for a text.

use super::elimination::{calculate, Call};
use super::interval::Interval;
use super::numbers::{DONE, SPENT};
use super::outcome::{Outcome, Slice, Stop};
use super::sweep::{sweeps, SweepEnd};
use super::system::System;
use super::text::{read_text, CellarText, TextFault};
use std::io::Write;

/// The sweeps that the program allows.
pub const SHEET_SWEEPS: usize = 100;

/// The length that a lent sheet must have, more than any sheet needs.
pub const SHEET_LENGTH: usize = 2_048;

/// How a report call fared.
#[derive(Clone, Debug, PartialEq, Eq)]
pub enum ReportEnd<'a> {
    /// The lent sheet has the wrong length.
    Length,
    Faulty(TextFault),
    /// By the tests or the calculation of the elimination.
    Refused {
        n: usize,
        stop: Stop,
    },
    Swept {
        text: CellarText<'a>,
        end: SweepEnd,
    },
}

/// What the program prints for a text.
pub fn sheet(text: &[u8]) -> Vec<u8> {
    report_end(text, SHEET_LENGTH).sheet()
}

/// The report call: writes the sheet at the start of `out`, unless it refuses.
pub fn report(text: &[u8], out: &mut [u8]) -> Outcome {
    report_end(text, out.len()).finish(out)
}

/// The print call: all that the program prints, at the start of `out`.
pub fn print(text: &[u8], out: &mut [u8]) -> Outcome {
    if out.len() != SHEET_LENGTH {
        return Stop::Length(Slice::Box).into();
    }
    written(&sheet(text), out, Outcome::DONE)
}

/// One call with all that can be known of it, its tests in their sequence.
pub fn report_end(text: &[u8], sheet_length: usize) -> ReportEnd<'_> {
    match read_text(text) {
        Ok(_) if sheet_length != SHEET_LENGTH => ReportEnd::Length,
        Ok(text) => balance(text),
        Err(fault) => ReportEnd::Faulty(fault),
    }
}

/// Eliminates, then sweeps over the box that was written.
fn balance(text: CellarText) -> ReportEnd {
    let n = text.n;
    let eliminated = System::read(n, &text.matrix, &text.right_side, 2 * n).and_then(|balance| {
        let trace = calculate(Call::EliminateBalance, balance.clone());
        Ok((balance, trace.end?))
    });
    match eliminated {
        Ok((balance, start)) => ReportEnd::Swept {
            text,
            end: sweeps(&balance, start, SHEET_SWEEPS),
        },
        Err(stop) => ReportEnd::Refused { n, stop },
    }
}

impl ReportEnd<'_> {
    /// Writes the sheet, if bounds were reached. The one place that tells what
    /// the call returns: the count is of bytes, and 0 with a refusal.
    pub fn finish(&self, out: &mut [u8]) -> Outcome {
        let said = self.said();
        match said.number {
            DONE | SPENT => written(&self.sheet(), out, said),
            _ => Outcome::new(said.number, said.place),
        }
    }

    /// Settled, spent or refused; the count is of sweeps.
    pub fn said(&self) -> Outcome {
        match self {
            ReportEnd::Length => Stop::Length(Slice::Box).into(),
            ReportEnd::Faulty(fault) => fault.outcome(),
            ReportEnd::Refused { stop, .. } => (*stop).into(),
            ReportEnd::Swept { end, .. } => end.outcome(),
        }
    }

    fn sheet(&self) -> Vec<u8> {
        let ReportEnd::Swept { text, end } = self else {
            return refusal(self.said());
        };
        match end {
            SweepEnd::Settled { count, bounds } => printed(text, bounds, "settled", *count),
            SweepEnd::Spent { count, bounds } => printed(text, bounds, "spent", *count),
            _ => refusal(self.said()),
        }
    }
}

/// Number and place as said; the count is of the bytes that are written.
fn written(bytes: &[u8], out: &mut [u8], said: Outcome) -> Outcome {
    out[..bytes.len()].copy_from_slice(bytes);
    Outcome::counted(said.number, said.place, bytes.len() as u64)
}

fn refusal(outcome: Outcome) -> Vec<u8> {
    format!("refused {} {}\n", outcome.number, outcome.place).into_bytes()
}

fn printed(text: &CellarText, bounds: &[Interval], word: &str, count: u64) -> Vec<u8> {
    let mut sheet = Vec::with_capacity(SHEET_LENGTH);
    sheet.extend(text.names_line);
    for (index, Interval { lo, hi }) in bounds.iter().enumerate() {
        let before = if index == 0 { '\n' } else { ';' };
        append(&mut sheet, format_args!("{before}{lo}:{hi}"));
    }
    append(&mut sheet, format_args!("\n{word} {count}\n"));
    sheet
}

fn append(sheet: &mut Vec<u8>, arguments: std::fmt::Arguments) {
    let written = sheet.write_fmt(arguments);
    written.expect("writing to a vector does not fail");
}

#[cfg(test)]
mod tests {
    use super::*;
    use crate::samples::{INPUT, OUTPUT};

    /// As text, so that a failing test can be read.
    fn sheet_of(text: &str) -> String {
        String::from_utf8(sheet(text.as_bytes())).unwrap()
    }

    /// x = x / 2 + [−3, 1] units, so x is from −6 to 2.
    #[test]
    fn bounds_are_printed_in_the_text_s_own_form() {
        let text = "a\n500000:500000\n-3:1\n";
        assert_eq!(sheet_of(text), "a\n-6:2\nsettled 1\n");
        let text = "a\n0:0\n-2000000000:2000000000\n";
        assert_eq!(sheet_of(text), "a\n-2000000000:2000000000\nsettled 1\n");
    }

    /// Shares of 0.9999 both ways: the second pivot is 0.000199 to 0.0002, and
    /// the sweeps take 2 units in 10,000 off the width that this makes.
    #[test]
    fn a_hundred_sweeps_may_not_be_enough() {
        let text = "a;b\n0:0;999900:999900\n999900:999900;0:0\n100000:100000;100000:100000\n";
        let sheet = sheet_of(text);
        assert!(sheet.ends_with("\nspent 100\n"), "{sheet}");
    }

    #[test]
    fn a_refusal_prints_only_number_and_place() {
        assert_eq!(sheet_of("a\n1000000:1000000\n5:5\n"), "refused 5 1\n");
        let low = "a;b\n0:0;0:0\n0:0;-2000000000:0\n5:5;5:5\n";
        assert_eq!(sheet_of(low), "refused 6 2\n");
        assert_eq!(sheet_of("a\n0:0\n9999999999:9999999999\n"), "refused 3 1\n");
        assert_eq!(
            sheet_of("a;b\n0:0;1:0\n0:0;0:0\n0:0;0:0\n"),
            "refused 3 1\n"
        );
        assert_eq!(sheet_of(""), "refused 8 1\n");
        assert_eq!(sheet(&[b'a'; 65_537]), b"refused 8 0\n");
    }

    #[test]
    fn ends_wait_for_the_whole_text() {
        assert_eq!(sheet_of("a\n1:0\n5:5\n"), "refused 3 0\n");
        assert_eq!(sheet_of("a\n1:0\n5:5\n\n"), "refused 8 4\n");
        assert_eq!(sheet_of("a\n1:0\n5:+5\n"), "refused 8 3\n");
        assert_eq!(sheet_of("a\n1:0\n5:5"), "refused 8 3\n");
    }

    #[test]
    fn the_sheet_is_written_at_the_start() {
        let mut out = [7; SHEET_LENGTH];
        let length = OUTPUT.len();
        assert_eq!(
            report(INPUT, &mut out),
            Outcome::counted(0, 0, length as u64)
        );
        assert_eq!(&out[..length], OUTPUT);
        assert!(out[length..].iter().all(|byte| *byte == 7));
    }

    #[test]
    fn the_length_of_the_lent_sheet_is_tested_after_the_text() {
        for length in [0, 1, 2_047, 2_049, 4_096] {
            let mut out = vec![7; length];
            assert_eq!(report(INPUT, &mut out), Outcome::new(2, 3));
            assert_eq!(report(b"a\n1:0\n5:5\n", &mut out), Outcome::new(2, 3));
            assert_eq!(report(b"", &mut out), Outcome::new(8, 1));
            assert_eq!(report(&[b'a'; 65_537], &mut out), Outcome::new(8, 0));
            assert_eq!(print(b"", &mut out), Outcome::new(2, 3));
            assert!(out.iter().all(|byte| *byte == 7));
        }
    }

    #[test]
    fn a_refusal_writes_nothing_and_is_printed() {
        let mut out = [7; SHEET_LENGTH];
        assert_eq!(report(b"", &mut out), Outcome::new(8, 1));
        assert_eq!(out, [7; SHEET_LENGTH]);
        assert_eq!(print(b"", &mut out), Outcome::counted(0, 0, 12));
        assert_eq!(&out[..13], b"refused 8 1\n\x07");
    }

    /// 32 names of 16 bytes, and values of 11 bytes at both ends.
    #[test]
    fn the_longest_sheet_fits() {
        let names: Vec<_> = (0..32).map(|i| format!("{i:->16}")).collect();
        let line = |value| [value; 32].join(";") + "\n";
        let text =
            names.join(";") + "\n" + &line("0:0").repeat(32) + &line("-1999999999:-1999999998");
        let sheet = sheet_of(&text);
        assert_eq!(sheet.len(), 32 * 17 + 32 * 24 + "settled 1\n".len());
        assert!(sheet.len() < SHEET_LENGTH);
    }
}
