//! Random faults of texts, before and after they are written.

use super::draft::{value, Draft, Field};
use super::slips::with_faulty_end;
use super::spellings::{FAULTY_ENDS, FAULTY_NAMES, FAULTY_VALUES, WELL_FORMED};
use super::{damage, limits};
use crate::generator::Random;
use crate::reference::{LONGEST_NAME, MOST_BYTES, MOST_EQUATIONS};

fn index(random: &mut Random, count: usize) -> usize {
    random.below(count as u64) as usize
}

/// Makes some field or line faulty, or at least odd.
pub fn slip(random: &mut Random, draft: &mut Draft) {
    match random.below(10) {
        0..=3 => slip_in_value(random, draft),
        4..=6 => slip_in_name(random, draft),
        7 => slip_in_fields(random, draft),
        8 => slip_in_lines(random, draft),
        _ => add_names(random, draft),
    }
}

fn slip_in_value(random: &mut Random, draft: &mut Draft) {
    let line = random.between(0, draft.lines.len() as i64 - 1) as usize;
    if line == 0 || draft.lines[line].is_empty() {
        return;
    }
    let at = index(random, draft.lines[line].len());
    draft.lines[line][at] = match random.below(5) {
        0 => random.pick(&FAULTY_VALUES).as_bytes().to_vec(),
        1 => value(random.pick(&WELL_FORMED), random.pick(&WELL_FORMED)),
        _ => with_faulty_end(random.pick(&FAULTY_ENDS), random.once_in(2)),
    };
}

fn slip_in_name(random: &mut Random, draft: &mut Draft) {
    let Some(names) = draft.lines.first_mut() else {
        return;
    };
    if names.is_empty() {
        return;
    }
    let at = index(random, names.len());
    let other = names[index(random, names.len())].clone();
    names[at] = match random.below(5) {
        0 | 1 => random.pick(&FAULTY_NAMES).to_vec(),
        2 => other,
        3 => in_another_case(random, &other),
        _ => {
            let length = random.pick(&[1, LONGEST_NAME - 1, LONGEST_NAME, LONGEST_NAME + 1]);
            drawn_out(&names[at], length)
        }
    };
}

fn in_another_case(random: &mut Random, name: &[u8]) -> Field {
    if random.once_in(2) {
        name.to_ascii_lowercase()
    } else {
        name.to_ascii_uppercase()
    }
}

fn drawn_out(name: &[u8], length: usize) -> Field {
    let mut name = name.to_vec();
    name.resize(length, b'n');
    name
}

/// One field more or less.
fn slip_in_fields(random: &mut Random, draft: &mut Draft) {
    let line = index(random, draft.lines.len());
    let fields = &mut draft.lines[line];
    let at = index(random, fields.len() + 1);
    let ends = random.pick(&[0, at, fields.len()]);
    if ends < fields.len() && random.once_in(2) {
        fields.remove(ends);
    } else {
        let field = random.pick(&[&b""[..], b"0:0", b"x"]);
        fields.insert(ends, field.to_vec());
    }
}

/// A line dropped, doubled, emptied or in the place of another.
fn slip_in_lines(random: &mut Random, draft: &mut Draft) {
    let count = draft.lines.len();
    let anywhere = index(random, count);
    let at = random.pick(&[0, anywhere, count - 1]);
    match random.below(4) {
        0 if count > 1 => drop(draft.lines.remove(at)),
        1 => draft.lines.insert(at, draft.lines[at].clone()),
        2 => draft.lines[at].clear(),
        _ => draft.lines.swap(at, index(random, count)),
    }
}

/// Names up to 33, mostly with lines for them.
fn add_names(random: &mut Random, draft: &mut Draft) {
    let wanted = random.pick(&[MOST_EQUATIONS, MOST_EQUATIONS + 1, MOST_EQUATIONS + 2]);
    let whole = limits::vats(wanted);
    if random.once_in(4) {
        draft.lines[0] = whole.lines[0].clone();
    } else {
        *draft = whole;
    }
}

/// Damages the written bytes.
pub fn spoil(random: &mut Random, text: &mut Vec<u8>) {
    match random.below(12) {
        0..=2 => cut(random, text),
        3..=6 => spoil_byte(random, text),
        7 | 8 => text.extend(random.pick(&damage::TAILS)),
        9 => {
            let length = random.between(MOST_BYTES as i64 - 2, MOST_BYTES as i64 + 3);
            *text = limits::filled(text, length as usize, random.pick(&limits::FILLERS));
        }
        10 => {
            let kind = index(random, 5);
            *text = damage::other_ends(text).nth(kind).unwrap_or_default();
        }
        _ => text.truncate(random.pick(&[0, 1, 2])),
    }
}

/// Often at the end of a line.
fn cut(random: &mut Random, text: &mut Vec<u8>) {
    let lines = damage::lines(text).len();
    let kept = index(random, lines + 1);
    let length = damage::lines(text)[..kept].concat().len();
    let anywhere = index(random, text.len() + 1);
    let lengths = [
        length,
        length.saturating_sub(1),
        anywhere,
        text.len().saturating_sub(1),
    ];
    text.truncate(random.pick(&lengths));
}

/// In the first line as often as in all others.
fn spoil_byte(random: &mut Random, text: &mut Vec<u8>) {
    let first = damage::lines(text).first().map_or(0, |line| line.len());
    if first == 0 {
        return;
    }
    let part = random.pick(&[first, text.len()]);
    let place = index(random, part);
    match random.below(4) {
        0 => drop(text.remove(place)),
        1 => text.insert(place, text[place]),
        2 => text.insert(place, random.pick(&damage::BYTES)),
        _ => text[place] = random.pick(&damage::BYTES),
    }
}
