//! What the calls can reach, told more finely than by their outcomes.

use super::searches::LONGEST;
use super::tally::Goal;
use crate::reference::{Call, Flaw, Operation, Pass, Phase, Stop, TextPart, MOST_EQUATIONS};
use std::ops::RangeInclusive;

/// Sums on either side of the test whether they are below one.
pub const ABOUT_ONE: RangeInclusive<usize> = 999_999..=1_000_001;

/// Only a quotient has a divisor.
pub fn of_step(operation: Operation) -> Vec<Goal> {
    let mut goals = vec![
        Goal::once("0"),
        Goal::at("3 for operand", 0..=1),
        Goal::once("6"),
    ];
    if operation == Operation::Quotient {
        goals.push(Goal::once("5"));
    }
    goals
}

pub fn of_elimination(call: Call) -> Vec<Goal> {
    let mut goals = vec![Goal::at("0 for n", 1..=MOST_EQUATIONS)];
    goals.extend(sizes_and_lengths());
    goals.extend(refused_systems(call));
    goals.push(Goal::at("a swap at step", 1..=MOST_EQUATIONS - 1));
    goals.extend([0, 5, 6].map(|number| Goal::at(after_swaps(number), 1..=3)));
    goals
}

/// By the number of swaps, 3 for all greater ones.
pub fn after_swaps(number: u64) -> &'static str {
    match number {
        0 => "0 after swaps",
        5 => "5 after swaps",
        _ => "6 after swaps",
    }
}

fn sizes_and_lengths() -> [Goal; 2] {
    [Goal::once("1"), Goal::at("2 at place", 1..=3)]
}

fn faulty_ends() -> [Goal; 2] {
    ["3 in the matrix", "3 in the right side"].map(Goal::once)
}

/// Row 1 is never changed. The numerator of the last row is f(n), which was
/// tested before.
fn refused_systems(call: Call) -> Vec<Goal> {
    let mut goals = faulty_ends().to_vec();
    goals.push(Goal::at("5 at pivot", 1..=MOST_EQUATIONS));
    for phase in Phase::ALL {
        let rows = match phase {
            Phase::Forming if call == Call::Eliminate => continue,
            Phase::Forming | Phase::Quotient => 1..=MOST_EQUATIONS,
            Phase::Factor | Phase::Entry | Phase::RightSide => 2..=MOST_EQUATIONS,
            Phase::Numerator => 1..=MOST_EQUATIONS - 1,
            Phase::Dividend | Phase::End => continue,
        };
        goals.push(Goal::at(out_of_range(phase), rows));
    }
    goals
}

/// A 6 itself does not tell its kind.
fn out_of_range(phase: Phase) -> &'static str {
    match phase {
        Phase::Forming => "6 (forming) in row",
        Phase::Factor => "6 (factor) in row",
        Phase::Entry => "6 (entry) in row",
        Phase::RightSide => "6 (right side) in row",
        Phase::Numerator => "6 (numerator) in row",
        Phase::Quotient => "6 (quotient) in row",
        Phase::Dividend => "6 (dividend)",
        Phase::End => "6 (end)",
    }
}

/// The goal that a refusal of n equations reaches, and its place.
pub fn stopped(n: usize, stop: Stop) -> (&'static str, usize) {
    match stop {
        Stop::Size => ("1", 0),
        Stop::Length(slice) => ("2 at place", slice.place() as usize),
        Stop::Ends { position } if position < n * n => ("3 in the matrix", 0),
        Stop::Ends { position } if position < n * n + n => ("3 in the right side", 0),
        Stop::Ends { .. } => ("3 in the box", 0),
        Stop::Pivot { k } => ("5 at pivot", k),
        Stop::OutOfRange { phase, row } => (out_of_range(phase), row),
        Stop::Sums => ("10 for n", n),
    }
}

/// One vat has its row for a column.
pub fn of_start_box() -> Vec<Goal> {
    let mut goals = vec![
        Goal::at("0 by rows for n", 1..=MOST_EQUATIONS),
        Goal::at("0 by columns for n", 2..=MOST_EQUATIONS),
        Goal::at("10 for n", 1..=MOST_EQUATIONS),
        Goal::at("a greatest row sum of", ABOUT_ONE),
        Goal::at("a greatest column sum, a row failing, of", ABOUT_ONE),
        Goal::at("0 with an end at the lower or upper limit", 0..=1),
        Goal::once("0 by rows with a known solution"),
        Goal::once("0 by columns with a known solution"),
    ];
    goals.extend(sizes_and_lengths());
    goals.extend(faulty_ends());
    let phases = [Phase::Dividend, Phase::Quotient, Phase::End];
    goals.extend(phases.map(|phase| Goal::once(out_of_range(phase))));
    goals
}

pub fn of_narrower() -> Vec<Goal> {
    let sized = ["first for n", "second for n", "first by a tie for n"];
    let mut goals = sized
        .map(|name| Goal::at(name, 1..=MOST_EQUATIONS))
        .to_vec();
    goals.extend([
        Goal::at("the first alone fails test", 2..=3),
        Goal::at("the second alone fails test", 2..=3),
        Goal::at("both fail, the first test", 1..=3),
        Goal::at("unequal: second by a unit, tie, first by a unit", 0..=2),
    ]);
    goals
}

/// By the same call, and by the other one.
pub const ON_WRITTEN: [&str; 2] = [
    "0, 9 or 7 on a box that the same call has written",
    "0, 9 or 7 on a box that the other call has written",
];

/// Of both calls, which come in lists together.
pub fn of_sweeps() -> Vec<Goal> {
    let of_one = Pass::ALL.into_iter().flat_map(|pass| {
        let goals = of_sweep(pass).into_iter();
        goals.map(move |goal| goal.by(pass.name()))
    });
    let mixed = Goal::once("a call of a list with both calls");
    of_one.chain([mixed]).collect()
}

fn of_sweep(pass: Pass) -> Vec<Goal> {
    let sizes = || 1..=MOST_EQUATIONS;
    let mut goals = vec![
        Goal::at("0 for n", sizes()),
        Goal::at("9 for n", sizes()),
        Goal::at("7 at vat", sizes()),
    ];
    goals.extend(sizes_and_lengths());
    goals.extend(faulty_ends());
    let single = [
        "3 in the box",
        "4 for no sweeps",
        "4 for too many sweeps",
        "0 with a count above 1",
        "0 by the last allowed sweep, above 1",
        "9 with a count above 1",
        "7 with a count above 0",
        "7 with a count above 1",
        "a count of 10,000",
        "0, 9 or 7 after a refusal in the list",
        "0 or 9 with a known solution in the box",
    ];
    goals.extend(single.map(Goal::once));
    goals.extend(ON_WRITTEN.map(Goal::once));
    if pass == Pass::ThereAndBack {
        goals.push(Goal::at("7 on the way back at vat", sizes()));
        goals.push(Goal::at(
            "7 on the way back with a count of 0, above 0",
            0..=1,
        ));
    }
    goals
}

/// By what the state holds before the load.
pub const LOADED: [&str; 2] = [
    "refused on nothing, up due, down due",
    "0 on nothing, up due, down due",
];

/// So many passes there and back by halves are told apart.
pub const MOST_PASSES: usize = 8;

/// Of the four calls, which come in lists together.
pub fn of_half_rows() -> Vec<Goal> {
    let at_vats = |names: &[&'static str]| -> Vec<_> {
        let goals = names.iter().map(|name| Goal::at(name, 1..=MOST_EQUATIONS));
        goals.collect()
    };
    let mut load = at_vats(&["0 for n"]);
    load.extend(sizes_and_lengths());
    load.extend(faulty_ends());
    load.push(Goal::once("3 in the box"));
    load.extend(LOADED.map(|name| Goal::at(name, 0..=2)));
    let mut up = at_vats(&["0 for n", "7 at vat"]);
    up.push(Goal::once("19 out of turn"));
    let mut down = up.clone();
    down.push(Goal::at("0 after passes alone", 1..=MOST_PASSES));
    let mut narrow = at_vats(&["0 with up due at vat", "0 with down due at vat", "7 at vat"]);
    narrow.push(Goal::once("3 by sequence"));
    narrow.push(Goal::at("3 by lower, upper end", 0..=1));
    narrow.push(Goal::at("20 for 0, n + 1, more", 0..=2));
    for goals in [&mut up, &mut down, &mut narrow] {
        goals.push(Goal::once("19 with nothing loaded"));
        goals.push(Goal::once("a known solution is kept"));
    }
    let calls = ["half_load", "half_up", "half_down", "half_narrow"];
    let both = calls.into_iter().zip([load, up, down, narrow]);
    both.flat_map(|(call, mut goals)| {
        goals.push(Goal::once("19 for the length"));
        goals.into_iter().map(move |goal| goal.by(call))
    })
    .collect()
}

/// Where transfers are refused for their vats.
pub const VATS: &str = "11 at the first, a middle, the last transfer, 1,023";

/// Where they are for their sequence: the first one never is.
pub const ORDERS: &str = "12 at the second, a middle, the last transfer, 1,023";

/// How the library sweeps a list: with sums in one word or in two, and with products by sign
/// or with none below 0.
pub const WAYS: [&str; 4] = [
    "0 or 9 in one word, either sign, for n",
    "0 or 9 in one word, not below 0, for n",
    "0 or 9 in two words, either sign, for n",
    "0 or 9 in two words, not below 0, for n",
];

/// Of sums in two words: the records of row 1, and how far from 0 its sum is, which takes
/// three of the greatest products or five.
pub const RECORDS: &str = "0 or 9 in two words, records in row 1";
pub const FAR: [(&str, u32, usize); 2] = [
    ("0 or 9 with a sum beyond 2^63 for n", 63, 3),
    ("0 or 9 with a sum beyond 2^64 for n", 64, 5),
];

/// Of the three calls, which come together.
pub fn of_transfers() -> Vec<Goal> {
    let at_vats = |name| Goal::at(name, 1..=MOST_EQUATIONS);
    let mut shared = vec![
        at_vats("0 for n"),
        Goal::at(VATS, 0..=3),
        Goal::at(ORDERS, 0..=3),
    ];
    shared.extend(sizes_and_lengths());
    let single = [
        "0 with no transfer",
        "0 with 1,024 transfers",
        "0 or 9 with a known solution",
        "2 for 1,025 transfers",
        "3 in the list",
        "3 in the right side",
        "11 below 1",
        "12 with the same vats",
    ];
    shared.extend(single.map(Goal::once));
    let eliminate = ["5 at pivot", "6 in row"].map(at_vats).to_vec();
    let sweep = ["9 for n", "7 at vat"].into_iter().chain(WAYS).map(at_vats);
    let far = FAR.map(|(name, _, fewest)| Goal::at(name, fewest..=MOST_EQUATIONS));
    let sweep = sweep
        .chain(far)
        .chain([Goal::at(RECORDS, 0..=MOST_EQUATIONS)]);
    let sweep: Vec<_> = sweep.chain(["3 in the box", "4"].map(Goal::once)).collect();
    let calls = [
        ("eliminate_transfers", eliminate),
        ("sweep_transfers", sweep.clone()),
        ("symmetric_sweep_transfers", sweep),
    ];
    let all = calls.into_iter().flat_map(|(call, own)| {
        let goals = shared.clone().into_iter().chain(own);
        goals.map(move |goal| goal.by(call))
    });
    all.collect()
}

/// One vat's own share is met twice, so that its box can be narrower too.
pub fn of_symmetric() -> Vec<Goal> {
    let mut goals = vec![Goal::at(NARROWER[1], 1..=MOST_EQUATIONS)];
    let single = [
        "7 new",
        "7 as before",
        "settled sooner",
        "settled, spent before",
        "as before, but for the box",
    ];
    goals.extend(single.map(Goal::once));
    goals
}

/// By elimination, by sweeps on a lent box, and by sweeps after an elimination.
pub const NARROWER: [&str; 3] = [
    "narrower by elimination for n",
    "narrower by sweeps for n",
    "narrower by sweeps after elimination for n",
];

/// Rounding a row once changes nothing in a row of one product.
pub fn of_inside() -> Vec<Goal> {
    let [eliminated, swept, both] = NARROWER;
    let mut goals = vec![
        Goal::at(eliminated, 3..=MOST_EQUATIONS),
        Goal::at(swept, 2..=MOST_EQUATIONS),
        Goal::at(both, 2..=MOST_EQUATIONS),
    ];
    let single = [
        "6 gone",
        "6 moved to a lower row",
        "7 new",
        "7 as before",
        "settled sooner",
        "settled later",
        "settled, spent before",
        "spent, settled before",
        "as before, but for the box",
    ];
    goals.extend(single.map(Goal::once));
    goals
}

/// The box of one vat is settled at once, a surplus line is not missing, and the
/// last faulty line is one too many after 32 vats. No text is known that leads to
/// a 7: the box that elimination writes would have to hold no solution.
pub fn of_report() -> Vec<Goal> {
    let mut goals = vec![
        Goal::at("settled for n", 1..=MOST_EQUATIONS),
        Goal::at("spent for n", 2..=MOST_EQUATIONS),
        Goal::once("settled with a count above 1"),
        Goal::once("settled by the last allowed sweep"),
        Goal::once("2 for the length of the sheet"),
        Goal::once("8 for a text that is too long"),
        Goal::at("8 at line", 1..=MOST_EQUATIONS + 3),
    ];
    for part in [TextPart::Names, TextPart::Shares, TextPart::Deliveries] {
        let flaws = [Flaw::Missing, Flaw::Unended, Flaw::IllFormed];
        goals.extend(flaws.map(|flaw| Goal::once(faulty_line(part, flaw))));
    }
    let flaws = [Flaw::Unended, Flaw::IllFormed];
    goals.extend(flaws.map(|flaw| Goal::once(faulty_line(TextPart::Surplus, flaw))));
    goals.extend(refused_systems(Call::EliminateBalance));
    goals
}

/// A tail is shorter than a word of eight bytes.
pub fn of_search() -> Vec<Goal> {
    vec![
        Goal::at("found, length", 1..=LONGEST),
        Goal::at("none, length", 0..=LONGEST),
        Goal::at("found, offset", 0..=7),
        Goal::at("none, offset", 0..=7),
        Goal::at("found, off in bit", 0..=7),
        Goal::at("none, off in bit", 0..=7),
        Goal::at("found, byte", 0..=255),
        Goal::at("found, place", 0..=LONGEST - 1),
        Goal::at("found in a word, at", 0..=7),
        Goal::at("found in the tail, at", 0..=6),
        Goal::at("found before one off by -1, 0, 1", 0..=2),
        Goal::at("none, past the end by 0, 1, more", 0..=2),
        Goal::once("none but before the start"),
        Goal::at("none but behind the end, at", 0..=1),
    ]
}

pub fn faulty_line(part: TextPart, flaw: Flaw) -> &'static str {
    match (part, flaw) {
        (TextPart::Names, Flaw::Missing) => "8 for a names line that is missing",
        (TextPart::Names, Flaw::Unended) => "8 for a names line that is unended",
        (TextPart::Names, Flaw::IllFormed) => "8 for a names line that is ill-formed",
        (TextPart::Shares, Flaw::Missing) => "8 for a line of shares that is missing",
        (TextPart::Shares, Flaw::Unended) => "8 for a line of shares that is unended",
        (TextPart::Shares, Flaw::IllFormed) => "8 for a line of shares that is ill-formed",
        (TextPart::Deliveries, Flaw::Missing) => "8 for a line of deliveries that is missing",
        (TextPart::Deliveries, Flaw::Unended) => "8 for a line of deliveries that is unended",
        (TextPart::Deliveries, Flaw::IllFormed) => "8 for a line of deliveries that is ill-formed",
        (TextPart::Surplus, Flaw::Missing) => "8 for a surplus line that is missing",
        (TextPart::Surplus, Flaw::Unended) => "8 for a surplus line that is unended",
        (TextPart::Surplus, Flaw::IllFormed) => "8 for a surplus line that is ill-formed",
    }
}
