//! A text in fields, before it is written.

use crate::case::Case;
use crate::reference::MOST_EQUATIONS;

pub type Field = Vec<u8>;

/// Lines of fields, the names first. Any of them may be faulty.
#[derive(Clone, Debug, PartialEq, Eq)]
pub struct Draft {
    pub lines: Vec<Vec<Field>>,
}

/// The greatest magnitude of ten digits.
pub const GREATEST: u64 = 9_999_999_999;

/// True if a text as described can say this.
pub fn is_writable(case: &Case) -> bool {
    let n = case.n;
    let mut numbers = case.matrix.iter().chain(&case.right_side);
    (1..=MOST_EQUATIONS).contains(&n)
        && case.matrix.len() == 2 * n * n
        && case.right_side.len() == 2 * n
        && numbers.all(|number| number.unsigned_abs() <= GREATEST)
}

impl Draft {
    /// As many names as the case has vats.
    pub fn new(names: Vec<Field>, case: &Case) -> Draft {
        assert_eq!(names.len(), case.n, "each vat has a name");
        let rows = case.matrix.chunks(2 * case.n);
        let all = rows.chain([&case.right_side[..]]);
        let values = all.map(|row| row.chunks(2).map(|ends| value(ends[0], ends[1])).collect());
        Draft {
            lines: [names].into_iter().chain(values).collect(),
        }
    }

    /// The fields of a line by ';', each line with its end.
    pub fn written(&self) -> Vec<u8> {
        let mut text = Vec::new();
        for line in &self.lines {
            text.extend(line.join(&b';'));
            text.push(b'\n');
        }
        text
    }
}

pub fn value(lower: i64, upper: i64) -> Field {
    format!("{lower}:{upper}").into_bytes()
}
