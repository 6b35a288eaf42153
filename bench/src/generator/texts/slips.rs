//! Drafts with a faulty field or line.

use super::draft::{Draft, Field};
use super::spellings::{FAULTY_ENDS, FAULTY_NAMES, FAULTY_VALUES};
use crate::reference::LONGEST_NAME;

/// A value with a faulty end, beside a good one.
pub fn with_faulty_end(end: &str, upper: bool) -> Field {
    let value = if upper {
        format!("-7:{end}")
    } else {
        format!("{end}:7")
    };
    value.into_bytes()
}

/// Every way in which a value can be ill-formed.
fn faulty_values() -> impl Iterator<Item = Field> {
    let lower = FAULTY_ENDS.iter().map(|end| with_faulty_end(end, false));
    let upper = FAULTY_ENDS.iter().map(|end| with_faulty_end(end, true));
    let whole = FAULTY_VALUES.iter().map(|value| value.as_bytes().to_vec());
    lower.chain(upper).chain(whole)
}

/// Every way in which a name can be ill-formed, and the longest good one.
fn odd_names() -> impl Iterator<Item = Field> {
    let lengths = [
        LONGEST_NAME,
        LONGEST_NAME + 1,
        LONGEST_NAME + 2,
        32,
        100,
        272,
    ];
    let long = lengths.into_iter().map(|length| vec![b'n'; length]);
    FAULTY_NAMES.iter().map(|name| name.to_vec()).chain(long)
}

/// The drafts with another field in one place.
fn replaced(
    draft: &Draft,
    line: usize,
    field: usize,
    others: impl Iterator<Item = Field>,
) -> impl Iterator<Item = Draft> {
    let draft = draft.clone();
    others.map(move |other| {
        let mut draft = draft.clone();
        draft.lines[line][field] = other;
        draft
    })
}

/// Every field of a draft that is wanted, by line and place, made faulty in
/// every way.
pub fn fields<'a>(
    draft: &'a Draft,
    wanted: impl Fn(usize, usize) -> bool + 'a,
) -> impl Iterator<Item = Draft> + 'a {
    let places = draft.lines.iter().enumerate();
    let places = places.flat_map(|(line, fields)| (0..fields.len()).map(move |at| (line, at)));
    let chosen = places.filter(move |(line, at)| wanted(*line, *at));
    chosen.flat_map(move |(line, at)| {
        let others: Vec<_> = match line {
            0 => odd_names().chain(name_again(draft, at)).collect(),
            _ => faulty_values().collect(),
        };
        replaced(draft, line, at, others.into_iter())
    })
}

/// Every other name, as it is and in other cases of letters.
fn name_again(draft: &Draft, at: usize) -> impl Iterator<Item = Field> + '_ {
    let names = draft.lines[0].iter().enumerate();
    let others = names.filter(move |(place, _)| *place != at);
    others.flat_map(|(_, name)| {
        [
            name.clone(),
            name.to_ascii_lowercase(),
            name.to_ascii_uppercase(),
            [name, &b"-"[..]].concat(),
        ]
    })
}

/// A field dropped or doubled, or an empty one set in, on every line.
pub fn counts(draft: &Draft) -> impl Iterator<Item = Draft> + '_ {
    (0..draft.lines.len()).flat_map(move |line| {
        let last = draft.lines[line].len();
        let changes: Vec<_> = (0..=last)
            .flat_map(|at| changed_counts(draft, line, at))
            .collect();
        changes
    })
}

fn changed_counts(draft: &Draft, line: usize, at: usize) -> Vec<Draft> {
    let mut changed = Vec::new();
    let mut push = |change: &dyn Fn(&mut Vec<Field>)| {
        let mut draft = draft.clone();
        change(&mut draft.lines[line]);
        changed.push(draft);
    };
    push(&|fields| fields.insert(at, Vec::new()));
    if at < draft.lines[line].len() {
        push(&|fields| drop(fields.remove(at)));
        push(&|fields| fields.insert(at, fields[at].clone()));
    }
    changed
}

/// Two faults on different lines, and ends out of sequence before or after a
/// faulty line: the first faulty line decides, and ends wait.
pub fn pairs(draft: &Draft) -> impl Iterator<Item = Draft> + '_ {
    let count = draft.lines.len();
    let places = (0..count * count).map(move |code| (code / count, code % count));
    let different = places.filter(|(first, second)| first != second);
    different.flat_map(move |(first, second)| {
        let faults: [&[u8]; 4] = [b"9:8", b"9999999999:0", b"00:0", b""];
        faults.map(|fault| {
            let mut draft = draft.clone();
            draft.lines[first][0] = fault.to_vec();
            draft.lines[second].push(b"x".to_vec());
            draft
        })
    })
}
