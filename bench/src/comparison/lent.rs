//! What a call was lent and what it left behind, as it is printed.

use crate::case::{Answer, Case};
use std::fmt::Write;

/// Two answers to one call that differ.
pub fn difference(head: &str, lent: &Case, expected: &Answer, given: &Answer) -> String {
    let mut text = format!("difference in {head}, n = {}\n", lent.n);
    let _ = writeln!(text, "  reference: {}", expected.outcome);
    let _ = writeln!(text, "  archive:   {}", given.outcome);
    for (name, expected, given) in [
        ("matrix", &expected.matrix, &given.matrix),
        ("right side", &expected.right_side, &given.right_side),
        ("box", &expected.bounds, &given.bounds),
    ] {
        if !given.is_intact() {
            let _ = writeln!(text, "  the archive wrote past the {name}");
        }
        let both = expected.inside().iter().zip(given.inside()).enumerate();
        for (place, (expected, given)) in both.filter(|(_, (expected, given))| expected != given) {
            let _ = writeln!(text, "  number {place} of the {name}, from 0:");
            let _ = writeln!(text, "    reference: {expected}\n    archive:   {given}");
        }
    }
    write_lent(&mut text, lent);
    text
}

fn write_lent(text: &mut String, case: &Case) {
    for (name, numbers) in [
        ("matrix", &case.matrix),
        ("right side", &case.right_side),
        ("box", &case.bounds),
    ] {
        let _ = writeln!(text, "  lent {name}, {} numbers:", numbers.len());
        // A size that is refused says nothing about the rows.
        for row in numbers.chunks(2 * case.n.clamp(1, 64)) {
            let values = row.chunks(2).map(|ends| match ends {
                [lo, hi] => format!("{lo}:{hi}"),
                alone => format!("{alone:?}"),
            });
            let _ = writeln!(text, "    {}", values.collect::<Vec<_>>().join(";"));
        }
    }
}
