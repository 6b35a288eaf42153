//! The cellar text of document 01, read from its bytes alone.

use super::numbers::FAULTY_TEXT;
use super::outcome::Outcome;
use super::system::MOST_EQUATIONS;
use std::ops::Range;

/// The greatest number of bytes whose lines are judged.
pub const MOST_BYTES: usize = 65_536;

/// The greatest number of bytes in a name.
pub const LONGEST_NAME: usize = 16;

/// The greatest number of digits in a value's end.
pub const MOST_DIGITS: usize = 10;

const LINE_END: u8 = 10;

/// What a text as described says.
#[derive(Clone, Debug, PartialEq, Eq)]
pub struct CellarText<'a> {
    /// Line 1 without its end.
    pub names_line: &'a [u8],
    pub n: usize,
    /// B as it is lent to a call: row by row, each interval lower then upper.
    pub matrix: Vec<i64>,
    /// b likewise.
    pub right_side: Vec<i64>,
}

/// The first fault of a text.
#[derive(Clone, Copy, Debug, PartialEq, Eq, PartialOrd, Ord)]
pub enum TextFault {
    /// Above 65,536 bytes; no line is judged.
    TooLong,
    /// Lines count from 1.
    Line {
        line: usize,
        part: TextPart,
        flaw: Flaw,
    },
}

/// What a line is there for.
#[derive(Clone, Copy, Debug, PartialEq, Eq, PartialOrd, Ord)]
pub enum TextPart {
    Names,
    /// A row of B.
    Shares,
    /// The line of b.
    Deliveries,
    /// After the last line.
    Surplus,
}

/// What is wrong with a line.
#[derive(Clone, Copy, Debug, PartialEq, Eq, PartialOrd, Ord)]
pub enum Flaw {
    Missing,
    /// Without byte 10, whatever it holds.
    Unended,
    IllFormed,
}

impl TextFault {
    pub fn outcome(self) -> Outcome {
        let place = match self {
            TextFault::TooLong => 0,
            TextFault::Line { line, .. } => line as u64,
        };
        Outcome::new(FAULTY_TEXT, place)
    }
}

/// The names and numbers of a text, or its first fault.
pub fn read_text(text: &[u8]) -> Result<CellarText<'_>, TextFault> {
    test_length(text)?;
    let mut lines = Lines::new(text);
    let names_line = lines.next(TextPart::Names)?;
    let n = count_names(names_line).ok_or(lines.ill_formed(TextPart::Names))?;
    let mut matrix = Vec::with_capacity(2 * n * n);
    for _ in 0..n {
        lines.values(TextPart::Shares, n, &mut matrix)?;
    }
    let mut right_side = Vec::with_capacity(2 * n);
    lines.values(TextPart::Deliveries, n, &mut right_side)?;
    lines.finish()?;
    Ok(CellarText {
        names_line,
        n,
        matrix,
        right_side,
    })
}

/// Where the name of a vat, counted from 1, stands in the text. Nothing of the
/// text if it is too long, line 1 is faulty or there is no such vat; later
/// lines do not matter.
pub fn name_range(text: &[u8], vat: usize) -> Range<usize> {
    find_name(text, vat).unwrap_or(0..0)
}

fn find_name(text: &[u8], vat: usize) -> Option<Range<usize>> {
    test_length(text).ok()?;
    let line = Lines::new(text).next(TextPart::Names).ok()?;
    count_names(line)?;
    let name = fields(line).nth(vat.checked_sub(1)?)?;
    // The names before it, each with its separator.
    let before = fields(line).take(vat - 1).map(|name| name.len() + 1);
    let start = before.sum();
    Some(start..start + name.len())
}

fn test_length(text: &[u8]) -> Result<(), TextFault> {
    if text.len() > MOST_BYTES {
        Err(TextFault::TooLong)
    } else {
        Ok(())
    }
}

/// Takes one line after the other off the front of a text.
struct Lines<'a> {
    rest: &'a [u8],
    /// The number of the line that was taken last.
    line: usize,
}

impl<'a> Lines<'a> {
    fn new(text: &'a [u8]) -> Lines<'a> {
        Lines {
            rest: text,
            line: 0,
        }
    }

    fn fault(&self, part: TextPart, flaw: Flaw) -> TextFault {
        let line = self.line;
        TextFault::Line { line, part, flaw }
    }

    fn ill_formed(&self, part: TextPart) -> TextFault {
        self.fault(part, Flaw::IllFormed)
    }

    /// The next line without its end.
    fn next(&mut self, part: TextPart) -> Result<&'a [u8], TextFault> {
        self.line += 1;
        if self.rest.is_empty() {
            return Err(self.fault(part, Flaw::Missing));
        }
        let end = self.rest.iter().position(|byte| *byte == LINE_END);
        let end = end.ok_or(self.fault(part, Flaw::Unended))?;
        let line = &self.rest[..end];
        self.rest = &self.rest[end + 1..];
        Ok(line)
    }

    /// Appends the ends of exactly n values.
    fn values(&mut self, part: TextPart, n: usize, ends: &mut Vec<i64>) -> Result<(), TextFault> {
        let line = self.next(part)?;
        let due = ends.len() + 2 * n;
        for field in fields(line) {
            let value = value(field).ok_or(self.ill_formed(part))?;
            ends.extend(value);
        }
        if ends.len() == due {
            Ok(())
        } else {
            Err(self.ill_formed(part))
        }
    }

    /// Any byte after the last line begins one line too many.
    fn finish(&mut self) -> Result<(), TextFault> {
        if self.rest.is_empty() {
            return Ok(());
        }
        self.next(TextPart::Surplus)?;
        Err(self.ill_formed(TextPart::Surplus))
    }
}

/// What lies between separators. An empty line is one empty field.
fn fields(line: &[u8]) -> impl Iterator<Item = &[u8]> {
    line.split(|byte| *byte == b';')
}

/// Nothing if the names line is faulty.
fn count_names(line: &[u8]) -> Option<usize> {
    let mut before: [&[u8]; MOST_EQUATIONS] = [&[]; MOST_EQUATIONS];
    let mut count = 0;
    for name in fields(line) {
        if count == MOST_EQUATIONS || !is_name(name) || before[..count].contains(&name) {
            return None;
        }
        before[count] = name;
        count += 1;
    }
    Some(count)
}

fn is_name(field: &[u8]) -> bool {
    let is_allowed = |byte: &u8| byte.is_ascii_alphanumeric() || *byte == b'-';
    (1..=LONGEST_NAME).contains(&field.len()) && field.iter().all(is_allowed)
}

/// Lower ':' upper.
fn value(field: &[u8]) -> Option<[i64; 2]> {
    let colon = field.iter().position(|byte| *byte == b':')?;
    let (lower, upper) = (&field[..colon], &field[colon + 1..]);
    Some([number(lower)?, number(upper)?])
}

/// A whole number in the one way in which it may be written. Ten digits may
/// leave the range; that is not the text's fault.
fn number(field: &[u8]) -> Option<i64> {
    let (negative, digits) = match field {
        [b'-', digits @ ..] => (true, digits),
        digits => (false, digits),
    };
    match digits {
        [b'0'] if !negative => return Some(0),
        [] | [b'0', ..] => return None,
        _ if digits.len() > MOST_DIGITS => return None,
        _ => (),
    }
    let mut magnitude = 0;
    for byte in digits {
        let digit = byte.is_ascii_digit().then(|| i64::from(byte - b'0'))?;
        magnitude = 10 * magnitude + digit;
    }
    Some(if negative { -magnitude } else { magnitude })
}
