//! Files of cases for the program `vectors`, and the lines that it must print
//! for them. Its `main.rt` describes the form.

use crate::case::{Case, Slices};
use crate::comparison::{Boxes, MOST_LENT};
use crate::reference::{self, Call, HalfCall, Interval, ListCall, Operation, Outcome, Pass};
use crate::reference::{HALF_BOX, MOST_EQUATIONS, TRANSFER};
use crate::side::Side;
use crate::text_case::TextCase;
use std::fmt::Write;
use std::str::{self, FromStr};

/// One entry of a file. A case is a call; systems and texts are what the calls
/// after them are lent, each with the box as the one before left it.
#[derive(Clone, Debug, PartialEq, Eq)]
pub enum Entry {
    Remark(String),
    Step(Operation, Interval, Interval),
    System(Case),
    /// The same with a list of transfers in place of the matrix.
    List(Case),
    Transfers(ListCall),
    Eliminate(Call),
    StartBox,
    /// Which of the two calls, and the sweeps allowed.
    Sweep(Pass, usize),
    /// On the first numbers, so many, of the system's state.
    Half(HalfCall, usize),
    Narrower(Boxes),
    Text(Vec<u8>),
    /// The numbers of the text, into slices of these lengths.
    Read(usize, usize),
    /// The name of this vat.
    Name(usize),
    /// The sheet or the refusal, into a slice of this length.
    Report(usize),
    /// What the program prints, into a slice of this length.
    Print(usize),
    /// The first such byte of the text, from a place on.
    Find(usize, u8),
}

/// The lengths that the slices lent to a reading call must have.
pub const READ_LENGTHS: [usize; 2] = [2_048, 64];

/// What the program lends as a sheet: no byte of a sheet.
const LENT_BYTE: u8 = b'.';

const STEPS: [(char, Operation); 4] = [
    ('+', Operation::Sum),
    ('-', Operation::Difference),
    ('*', Operation::Product),
    ('/', Operation::Quotient),
];

/// What of a file was not read yet.
struct Rest<'a>(&'a [u8]);

impl<'a> Rest<'a> {
    fn take(&mut self, length: usize) -> &'a [u8] {
        let (taken, rest) = self.0.split_at(length);
        self.0 = rest;
        taken
    }

    /// Up to a byte that is sought, or all.
    fn until(&mut self, sought: impl Fn(&u8) -> bool) -> &'a str {
        let end = self.0.iter().position(sought).unwrap_or(self.0.len());
        str::from_utf8(self.take(end)).expect("only texts have bytes that are no characters")
    }

    /// What stands between blanks; nothing at the end.
    fn word(&mut self) -> &'a str {
        self.until(|byte| !b" \n".contains(byte));
        self.until(|byte| b" \n".contains(byte))
    }

    fn number<N: FromStr>(&mut self) -> N {
        let word = self.word();
        let number = word.parse().ok();
        number.unwrap_or_else(|| panic!("'{word}' is no number of a case"))
    }

    fn numbers(&mut self, count: usize) -> Vec<i64> {
        (0..count).map(|_| self.number()).collect()
    }

    fn interval(&mut self) -> Interval {
        Interval::new(self.number(), self.number())
    }

    fn system(&mut self) -> Case {
        let n = self.number();
        let [matrix, right_side, bounds] = [(); 3].map(|_| self.number());
        Case {
            n,
            matrix: self.numbers(matrix),
            right_side: self.numbers(right_side),
            bounds: self.numbers(bounds),
        }
    }

    fn boxes(&mut self) -> Boxes {
        let [n, first, second] = [(); 3].map(|_| self.number());
        let [first, second] = [first, second].map(|length| self.numbers(length));
        Boxes { n, first, second }
    }

    fn text(&mut self) -> Vec<u8> {
        let length: usize = self.number();
        self.take(1);
        self.take(length).to_vec()
    }

    fn call(&mut self) -> Entry {
        let letter = self.word();
        let step = STEPS.iter().find(|(sign, _)| letter.starts_with(*sign));
        if let Some((_, operation)) = step {
            return Entry::Step(*operation, self.interval(), self.interval());
        }
        match letter {
            "A" => Entry::Eliminate(Call::Eliminate),
            "B" => Entry::Eliminate(Call::EliminateBalance),
            "X" => Entry::StartBox,
            "S" => Entry::Sweep(Pass::There, self.number()),
            "Y" => Entry::Sweep(Pass::ThereAndBack, self.number()),
            "E" => Entry::Transfers(ListCall::Eliminate),
            "G" => Entry::Transfers(ListCall::Sweep(Pass::There, self.number())),
            "H" => Entry::Transfers(ListCall::Sweep(Pass::ThereAndBack, self.number())),
            "L" => Entry::Half(HalfCall::Load, self.number()),
            "U" => Entry::Half(HalfCall::Up, self.number()),
            "D" => Entry::Half(HalfCall::Down, self.number()),
            "Z" => {
                let length = self.number();
                Entry::Half(HalfCall::Narrow(self.number(), self.interval()), length)
            }
            "C" => Entry::Narrower(self.boxes()),
            "R" => Entry::Read(self.number(), self.number()),
            "N" => Entry::Name(self.number()),
            "W" => Entry::Report(self.number()),
            "P" => Entry::Print(self.number()),
            "F" => Entry::Find(self.number(), self.number()),
            _ => panic!("there is no call '{letter}'"),
        }
    }
}

/// The entries of a file. Panics if it is not in the form.
pub fn entries(file: &[u8]) -> Vec<Entry> {
    let mut rest = Rest(file);
    let mut entries = Vec::new();
    loop {
        entries.push(match rest.word() {
            "" => return entries,
            "#" => Entry::Remark(rest.until(|byte| *byte == b'\n').trim_start().to_string()),
            "M" => Entry::System(rest.system()),
            "V" => Entry::List(rest.system()),
            "T" => Entry::Text(rest.text()),
            _number => rest.call(),
        });
    }
}

/// The file of these entries, its cases numbered anew from 1.
pub fn written(entries: &[Entry]) -> Vec<u8> {
    let mut file = Vec::new();
    let mut cases = 0;
    for entry in entries {
        match entry {
            Entry::Remark(words) => file.extend(format!("# {words}\n").bytes()),
            Entry::System(lent) => {
                let row = 2 * lent.n.clamp(1, MOST_EQUATIONS);
                file.extend(system_written('M', lent, row).bytes());
            }
            Entry::List(lent) => file.extend(system_written('V', lent, TRANSFER).bytes()),
            Entry::Text(text) => {
                file.extend(format!("T {}\n", text.len()).bytes());
                file.extend(text);
                file.push(b'\n');
            }
            call => {
                cases += 1;
                let line = format!("{cases} {}{}\n", letter(call), arguments(call));
                file.extend(line.bytes());
            }
        }
    }
    file
}

fn letter(call: &Entry) -> char {
    match call {
        Entry::Step(operation, ..) => {
            let step = STEPS.iter().find(|(_, step)| step == operation);
            step.expect("every step has a sign").0
        }
        Entry::Eliminate(Call::Eliminate) => 'A',
        Entry::Eliminate(Call::EliminateBalance) => 'B',
        Entry::StartBox => 'X',
        Entry::Sweep(Pass::There, _) => 'S',
        Entry::Sweep(Pass::ThereAndBack, _) => 'Y',
        Entry::Transfers(ListCall::Eliminate) => 'E',
        Entry::Transfers(ListCall::Sweep(Pass::There, _)) => 'G',
        Entry::Transfers(ListCall::Sweep(Pass::ThereAndBack, _)) => 'H',
        Entry::Half(HalfCall::Load, _) => 'L',
        Entry::Half(HalfCall::Up, _) => 'U',
        Entry::Half(HalfCall::Down, _) => 'D',
        Entry::Half(HalfCall::Narrow(..), _) => 'Z',
        Entry::Narrower(_) => 'C',
        Entry::Read(..) => 'R',
        Entry::Name(_) => 'N',
        Entry::Report(_) => 'W',
        Entry::Print(_) => 'P',
        Entry::Find(..) => 'F',
        other => panic!("{other:?} is no call"),
    }
}

fn arguments(call: &Entry) -> String {
    match call {
        Entry::Step(_, a, b) => format!(" {} {} {} {}", a.lo, a.hi, b.lo, b.hi),
        Entry::Read(matrix, right_side) => format!(" {matrix} {right_side}"),
        Entry::Find(from, byte) => format!(" {from} {byte}"),
        Entry::Narrower(Boxes { n, first, second }) => {
            let lengths = format!(" {n} {} {}", first.len(), second.len());
            let [first, second] = [first, second].map(|numbers| joined(numbers));
            format!("{lengths}\n{}\n{}", first.trim_start(), second.trim_start())
        }
        Entry::Half(HalfCall::Narrow(vat, Interval { lo, hi }), length) => {
            format!(" {length} {vat} {lo} {hi}")
        }
        Entry::Sweep(_, number)
        | Entry::Transfers(ListCall::Sweep(_, number))
        | Entry::Half(_, number)
        | Entry::Name(number)
        | Entry::Report(number)
        | Entry::Print(number) => format!(" {number}"),
        _ => String::new(),
    }
}

/// A row of the matrix takes one line, and so does a transfer.
fn system_written(letter: char, lent: &Case, row: usize) -> String {
    let lengths = [&lent.matrix, &lent.right_side, &lent.bounds].map(Vec::len);
    let [matrix, right_side, bounds] = lengths;
    let mut text = format!("{letter} {} {matrix} {right_side} {bounds}\n", lent.n);
    let rows = lent.matrix.chunks(row);
    for row in rows.chain([&lent.right_side[..], &lent.bounds]) {
        text += joined(row).trim_start();
        text.push('\n');
    }
    text
}

/// Numbers, each with a blank before it.
fn joined(numbers: &[i64]) -> String {
    let mut text = String::new();
    for number in numbers {
        let _ = write!(text, " {number}");
    }
    text
}

/// The lines that must be printed for these entries, as a side answers them.
/// Names and numbers of texts are always the reference's: the archive has no
/// call for them.
pub fn lines(entries: &[Entry], side: &impl Side) -> Vec<String> {
    let mut lent = None;
    let mut state = [0; MOST_LENT];
    let mut text = Vec::new();
    let mut lines = Vec::new();
    for entry in entries {
        let answer = match entry {
            Entry::Remark(_) => continue,
            Entry::System(system) | Entry::List(system) => {
                lent = Some(system.clone());
                state = [0; MOST_LENT];
                continue;
            }
            Entry::Text(bytes) => {
                text.clone_from(bytes);
                continue;
            }
            Entry::Step(operation, a, b) => match side.step(*operation, *a, *b) {
                (0, 0, lo, hi) => format!(" 0 0 {lo} {hi}"),
                (number, place, ..) => format!(" {number} {place}"),
            },
            Entry::Narrower(Boxes { n, first, second }) => {
                let chosen = side.narrower(*n, first, second);
                format!(" {}{}", chosen.len(), joined(chosen))
            }
            Entry::Eliminate(_)
            | Entry::StartBox
            | Entry::Sweep(..)
            | Entry::Transfers(_)
            | Entry::Half(..) => {
                let lent = lent.as_mut().expect("a system stands before");
                on_system(entry, lent, &mut state, side)
            }
            call => on_text(call, &text, side),
        };
        lines.push(format!("{} {}{answer}", lines.len() + 1, letter(entry)));
    }
    lines
}

/// The call's outcome, and all that the box holds after it, or the state's box.
fn on_system(call: &Entry, lent: &mut Case, state: &mut [i64], side: &impl Side) -> String {
    let answer = lent.answer(|n, slices: Slices| match call {
        Entry::Eliminate(call) => side.eliminate(*call, n, slices),
        Entry::StartBox => side.start_box(n, slices),
        Entry::Sweep(pass, allowed) => side.sweep(*pass, n, slices, *allowed),
        Entry::Transfers(call) => side.transfers(*call, n, slices),
        Entry::Half(call, length) => side.half_rows(*call, &mut state[..*length], n, slices),
        other => panic!("{other:?} is no call on a system"),
    });
    lent.bounds = answer.bounds.inside().to_vec();
    let Outcome {
        number,
        place,
        count,
    } = answer.outcome;
    let counted = match call {
        Entry::Sweep(..) | Entry::Transfers(ListCall::Sweep(..)) => format!(" {count}"),
        _ => String::new(),
    };
    let left = match call {
        Entry::Half(..) if lent.n > MOST_EQUATIONS => &[],
        Entry::Half(..) => &state[HALF_BOX..][..2 * lent.n],
        _ => &lent.bounds[..],
    };
    format!(" {number} {place}{counted}{}", joined(left))
}

fn on_text(call: &Entry, text: &[u8], side: &impl Side) -> String {
    match call {
        Entry::Read(matrix, right_side) => read(text, [*matrix, *right_side]),
        Entry::Name(vat) => {
            let name = String::from_utf8_lossy(&text[reference::name_range(text, *vat)]);
            format!(" {} :{name}", name.len())
        }
        Entry::Report(length) => sheet(text, *length, |text, out| side.report(text, out)),
        Entry::Print(length) => sheet(text, *length, |text, out| reference::print(text, out)),
        Entry::Find(from, byte) => {
            let place = side.first_byte(&mut text.to_vec(), *from, *byte);
            match place == text.len() {
                true => " none".to_string(),
                false => format!(" {place}"),
            }
        }
        other => panic!("{other:?} is no call on a text"),
    }
}

/// What the sheet holds is given up to the last byte that is not as lent.
fn sheet(text: &[u8], length: usize, call: impl FnOnce(&mut [u8], &mut [u8]) -> Outcome) -> String {
    let out = vec![LENT_BYTE; length];
    let text = text.to_vec();
    let answer = TextCase { text, out }.answer(call);
    let out = answer.out.inside();
    let end = out.iter().rposition(|byte| *byte != LENT_BYTE);
    let sheet = String::from_utf8_lossy(&out[..end.map_or(0, |end| end + 1)]);
    let outcome = answer.outcome;
    let (number, place, count) = (outcome.number, outcome.place, outcome.count);
    format!(" {number} {place} {count} :{}", sheet.replace('\n', "|"))
}

/// A faulty text comes first, then the lengths. What the slices hold is given up
/// to the last number that is not as lent.
fn read(text: &[u8], lengths: [usize; 2]) -> String {
    let refused = |outcome: Outcome| format!(" {} {} 0 : :", outcome.number, outcome.place);
    let wrong = (0..2).find(|slice| lengths[*slice] != READ_LENGTHS[*slice]);
    match (reference::read_text(text), wrong) {
        (Err(fault), _) => refused(fault.outcome()),
        (Ok(_), Some(slice)) => refused(Outcome::new(2, slice as u64 + 1)),
        (Ok(read), None) => {
            let (matrix, right_side) = (joined(&read.matrix), joined(&read.right_side));
            format!(" 0 0 {} :{matrix} :{right_side}", read.n)
        }
    }
}

#[cfg(test)]
mod tests {
    use super::*;
    use crate::archive::Archive;
    use crate::side::Reference;

    const STORED: &[u8] = include_bytes!("../../crates/vectors/data/cases");
    const PRINTED: &str = include_str!("../../crates/vectors/stdout");

    #[test]
    fn a_file_is_read_as_it_was_written() {
        let stored = entries(STORED);
        assert_eq!(written(&stored), STORED);
        assert_eq!(entries(&written(&stored)), stored);
    }

    #[test]
    fn the_stored_lines_are_the_reference_s() {
        let lines = lines(&entries(STORED), &Reference);
        assert!(lines.iter().map(String::as_str).eq(PRINTED.lines()));
    }

    /// Without the calls that the archive does not have.
    #[test]
    fn the_archive_gives_the_stored_lines() {
        let mut tried = 0;
        for (given, stored) in lines(&entries(STORED), &Archive)
            .iter()
            .zip(PRINTED.lines())
        {
            assert_eq!(given, stored);
            let letter = stored.split(' ').nth(1);
            tried += usize::from(!matches!(letter, Some("R" | "N")));
        }
        assert!(tried > 500, "only {tried} tried");
    }
}
