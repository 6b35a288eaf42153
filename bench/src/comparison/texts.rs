//! Comparing report calls.

use super::goals::{faulty_line, stopped};
use super::{Tally, Trial};
use crate::reference::{report_end, ReportEnd, SweepEnd, TextFault, SHEET_SWEEPS};
use crate::side::Side;
use crate::text_case::{TextAnswer, TextCase};
use std::fmt::Write;

impl Trial for TextCase {
    fn compare(&self, side: &impl Side, tally: &mut Tally) -> Result<(), String> {
        let end = report_end(&self.text, self.out.len());
        let expected = self.answer(|_, out| end.finish(out));
        let given = self.answer(|text, out| side.report(text, out));
        if expected != given {
            return Err(difference(self, &expected, &given));
        }
        tally.count(end.said().number);
        match end {
            ReportEnd::Length => tally.reach("2 for the length of the sheet", 0),
            ReportEnd::Faulty(fault) => reach_fault(tally, fault),
            ReportEnd::Refused { n, stop } => {
                let (goal, place) = stopped(n, stop);
                tally.reach(goal, place);
            }
            ReportEnd::Swept { text, end } => reach_swept(tally, text.n, &end),
        }
        Ok(())
    }
}

fn reach_fault(tally: &mut Tally, fault: TextFault) {
    match fault {
        TextFault::TooLong => tally.reach("8 for a text that is too long", 0),
        TextFault::Line { line, part, flaw } => {
            tally.reach(faulty_line(part, flaw), 0);
            tally.reach("8 at line", line);
        }
    }
}

fn reach_swept(tally: &mut Tally, n: usize, end: &SweepEnd) {
    let goal = match end {
        SweepEnd::Settled { .. } => "settled for n",
        SweepEnd::Spent { .. } => "spent for n",
        _ => panic!("a text that leads to a 7, the first one known: {end:?}"),
    };
    tally.reach(goal, n);
    let count = end.outcome().count;
    if matches!(end, SweepEnd::Settled { .. }) && count > 1 {
        tally.reach("settled with a count above 1", 0);
    }
    if matches!(end, SweepEnd::Settled { .. }) && count == SHEET_SWEEPS as u64 {
        tally.reach("settled by the last allowed sweep", 0);
    }
}

fn difference(lent: &TextCase, expected: &TextAnswer, given: &TextAnswer) -> String {
    let mut text = "difference in report\n".to_string();
    let _ = writeln!(text, "  reference: {}", expected.outcome);
    let _ = writeln!(text, "  archive:   {}", given.outcome);
    if expected.text != given.text {
        text += "  the archive altered the text, or wrote past it\n";
    }
    if !given.out.is_intact() {
        text += "  the archive wrote past the sheet\n";
    }
    let both = expected.out.inside().iter().zip(given.out.inside());
    let different = both
        .enumerate()
        .filter(|(_, (expected, given))| expected != given);
    for (place, (expected, given)) in different.take(10) {
        let _ = writeln!(text, "  byte {place} of the sheet, from 0:");
        let _ = writeln!(text, "    reference: {expected}\n    archive:   {given}");
    }
    let length = given.outcome.count as usize;
    let sheet = given.out.inside().get(..length).unwrap_or(&[]);
    text += &shown("sheet of the archive", sheet);
    let _ = writeln!(text, "  lent sheet: {} bytes", lent.out.len());
    text + &shown("text", &lent.text)
}

/// Bytes as they are printed, those that are no characters by their number; not
/// all of a long text.
pub fn shown(name: &str, bytes: &[u8]) -> String {
    let mut text = format!("  {name}, {} bytes:\n", bytes.len());
    let first = &bytes[..bytes.len().min(4_000)];
    for line in first.split_inclusive(|byte| *byte == b'\n') {
        let _ = writeln!(text, "    {}", line.escape_ascii());
    }
    if first.len() < bytes.len() {
        text += "    and so on\n";
    }
    text
}
