//! Document 01, and what document 02 adds to it, a second time, written from
//! their words alone.

mod elimination;
#[cfg(test)]
mod enclosure;
mod half;
mod interval;
mod narrower;
mod numbers;
mod outcome;
mod rows;
mod search;
mod sheet;
mod start_box;
mod steps;
mod sweep;
mod system;
mod text;
#[cfg(test)]
mod text_examples;
mod transfers;

pub use elimination::{calculate, eliminate, eliminate_balance, numerator, trace, Call, Trace};
pub use half::{half_rows, HalfCall, Loaded, HALF_BOX, HALF_LENGTH};
pub use interval::{Interval, WideInterval, LIMIT, SCALE};
pub use narrower::{narrower, width};
pub use numbers::*;
pub use outcome::{Outcome, Phase, Slice, Stop};
pub use rows::Rounding;
pub use search::first_byte;
pub use sheet::{print, report, report_end, sheet, ReportEnd, SHEET_LENGTH, SHEET_SWEEPS};
pub use start_box::{start_box, started, sums, Sums};
pub use steps::{difference, product, quotient, step, sum, Operation, Step};
pub use sweep::{sweep, sweep_end, sweeps, Pass, SweepEnd, MOST_SWEEPS};
pub use system::{intervals, laid_flat, System, MOST_EQUATIONS};
pub use text::{name_range, read_text, CellarText, Flaw, TextFault, TextPart};
pub use text::{LONGEST_NAME, MOST_BYTES, MOST_DIGITS};
pub use transfers::{transfers, ListCall, MOST_TRANSFERS, TRANSFER};
