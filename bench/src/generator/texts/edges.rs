//! The edge texts, always the same.

use super::draft::{is_writable, value, Draft};
use super::spellings::WELL_FORMED;
use super::{damage, limits, names, sheets, slips, slow};
use crate::case::Case;
use crate::generator::edge_cases;
use crate::reference::{Call, System, MOST_EQUATIONS, SHEET_LENGTH};
use crate::samples::INPUT;
use crate::text_case::TextCase;
use std::iter;

/// One in so many of the edge systems is written as a text: of the small ones,
/// and of those in which places are rare.
const STRIDES: [usize; 2] = [9, 2];
const SMALL: usize = 8;

/// Every edge text, those that take long last.
pub fn edge_texts() -> impl Iterator<Item = TextCase> {
    let texts = [INPUT.to_vec()]
        .into_iter()
        .chain(damaged())
        .chain(slipped())
        .chain(limits::many_vats())
        .chain(well_formed())
        .chain(every_size())
        .chain(slow::balances().enumerate().map(named))
        .chain(limits::long_texts())
        .chain(iter::once_with(slipped_corners).flatten())
        .chain(iter::once_with(damaged_longest).flatten())
        .chain(systems());
    let lent = texts.enumerate().map(|(index, text)| TextCase {
        out: sheets::content(index, SHEET_LENGTH),
        text,
    });
    faulty_lengths().chain(lent)
}

/// The case as a text, with the names that its number asks for.
fn named((index, case): (usize, Case)) -> Vec<u8> {
    Draft::new(names::listed(index, case.n), &case).written()
}

/// Few bytes, all kinds of ends.
fn small() -> Draft {
    let mut balance = Case::new(&System::noughts(1));
    balance.matrix = vec![-10, 200_000];
    balance.right_side = vec![-5, 0];
    Draft::new(names::listed(0, 1), &balance)
}

/// Names and ends of several lengths.
fn medium() -> Draft {
    let mut balance = Case::new(&System::noughts(3));
    let shares = (0..9).flat_map(|place| [-(place * 12_345), 7_i64.pow(place as u32 / 2)]);
    balance.matrix = shares.collect();
    balance.right_side = vec![-2_000_000_000, -1_999_999_999, 0, 1, 10, 1_000_000_000];
    let names = ["A-9", "z", "0123456789abcdeF"].map(|name| name.as_bytes().to_vec());
    Draft::new(names.to_vec(), &balance)
}

/// As long as a text of valid ends can be.
fn longest() -> Draft {
    let mut balance = Case::new(&System::noughts(MOST_EQUATIONS));
    balance.matrix.fill(-2_000_000_000);
    balance.right_side.fill(-2_000_000_000);
    Draft::new(names::listed(2, MOST_EQUATIONS), &balance)
}

fn damaged() -> impl Iterator<Item = Vec<u8>> {
    let drafts = [small as fn() -> Draft, medium];
    let written = drafts.into_iter().map(|draft| draft().written());
    let texts = [INPUT.to_vec()].into_iter().chain(written);
    texts.flat_map(|text| {
        let all = 0..text.len();
        let bytes = damage::changes(&text, all.clone()).chain(damage::shifts(&text, all));
        let rest = damage::cuts(&text)
            .chain(damage::tails(&text))
            .chain(damage::moved_lines(&text))
            .chain(damage::other_ends(&text));
        bytes.chain(rest).collect::<Vec<_>>()
    })
}

/// Only some places of it, and every line.
fn damaged_longest() -> Vec<Vec<u8>> {
    let text = longest().written();
    let places = (0..text.len()).step_by(397).chain([text.len() - 1]);
    let bytes = places.flat_map(|place| {
        let part = place..place + 1;
        let changes = damage::changes(&text, part.clone()).step_by(3);
        changes.chain(damage::shifts(&text, part))
    });
    let lines = damage::lines(&text);
    let cuts = (0..lines.len()).flat_map(|count| {
        let length = lines[..count].concat().len();
        [length, length.saturating_sub(1), length + 1].map(|length| text[..length].to_vec())
    });
    let rest = damage::tails(&text).chain(damage::moved_lines(&text).step_by(5));
    bytes.chain(cuts).chain(rest).collect()
}

fn slipped() -> impl Iterator<Item = Vec<u8>> {
    let drafts = [small as fn() -> Draft, medium];
    drafts.into_iter().flat_map(|draft| {
        let draft = draft();
        let fields = slips::fields(&draft, |_, _| true);
        let rest = slips::counts(&draft).chain(slips::pairs(&draft));
        let written = fields.chain(rest).map(|draft| draft.written());
        written.collect::<Vec<_>>()
    })
}

/// In the first and last fields of the first and last lines of 32 vats.
fn slipped_corners() -> Vec<Vec<u8>> {
    let is_end = |at: usize, last: usize| at == 0 || at == last;
    let corners = |line, at| is_end(line, MOST_EQUATIONS + 1) && is_end(at, MOST_EQUATIONS - 1);
    let great = limits::vats(MOST_EQUATIONS);
    let slipped = slips::fields(&great, corners);
    slipped.map(|draft| draft.written()).collect()
}

/// Every n with names of every kind.
fn every_size() -> impl Iterator<Item = Vec<u8>> {
    let every = (1..=MOST_EQUATIONS).flat_map(|n| (0..names::KINDS).map(move |kind| (n, kind)));
    every.map(|(n, kind)| {
        let mut draft = limits::vats(n);
        draft.lines[0] = names::listed(kind, n);
        for (i, delivery) in draft.lines[n + 1].iter_mut().enumerate() {
            let end = WELL_FORMED[(i + n + kind) % WELL_FORMED.len()];
            *delivery = value(end, end);
        }
        draft.written()
    })
}

/// One vat with every two well-formed ends, as its share and as its delivery.
fn well_formed() -> impl Iterator<Item = Vec<u8>> {
    let ends = || WELL_FORMED.into_iter();
    let pairs = ends().flat_map(move |lower| ends().map(move |upper| (lower, upper)));
    pairs.flat_map(|(lower, upper)| {
        [
            format!("a\n{lower}:{upper}\n-1:2\n").into_bytes(),
            format!("a\n0:300000\n{lower}:{upper}\n").into_bytes(),
        ]
    })
}

/// Some of the edge systems of the elimination: every refusal that it has.
fn systems() -> impl Iterator<Item = Vec<u8>> {
    let cases = edge_cases(Call::EliminateBalance).filter(is_writable);
    let some = cases.enumerate().filter(|(index, case)| {
        let stride = STRIDES[usize::from(case.n > SMALL)];
        index % stride == 0
    });
    some.map(named)
}

/// Sheets of wrong lengths, for good, faulty and refused texts.
fn faulty_lengths() -> impl Iterator<Item = TextCase> {
    let long = limits::filled(INPUT, 70_000, b'\n');
    let texts = [
        INPUT.to_vec(),
        Vec::new(),
        b"a\n1000000:1000000\n0:0\n".to_vec(),
        long,
    ];
    texts.into_iter().flat_map(|text| {
        let lengths = sheets::FAULTY_LENGTHS.into_iter().enumerate();
        lengths.map(move |(index, length)| TextCase {
            text: text.clone(),
            out: sheets::content(index, length),
        })
    })
}
