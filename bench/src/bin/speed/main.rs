//! Compares the speed of the archive with that of everyday Rust. The ratios
//! are printed and never judged.

mod balances;
mod rounds;
mod tasks;

use rounds::Measured;
use std::env;
use std::process::ExitCode;
use tasks::{Kind, Side, KINDS};

const USAGE: &str = "usage: speed [ROUNDS]\n       speed count CASE ours|theirs TIMES";

/// Rounds of either side for each case.
const ROUNDS: usize = 101;

const SIZES: [usize; 4] = [4, 8, 16, 32];

fn main() -> ExitCode {
    let arguments: Vec<_> = env::args().skip(1).collect();
    let words: Vec<_> = arguments.iter().map(String::as_str).collect();
    let done = match words[..] {
        [] => compare(ROUNDS),
        ["count", name, side, times] => count(name, side, times),
        [rounds] => rounds.parse().ok().and_then(compare),
        _ => None,
    };
    if done.is_none() {
        eprintln!("{USAGE}\ncases:");
        names().for_each(|name| eprintln!("  {name}"));
        return ExitCode::from(2);
    }
    ExitCode::SUCCESS
}

/// Every case in the sequence of the table.
fn all() -> impl Iterator<Item = (Kind, usize)> {
    let kinds = KINDS.into_iter();
    kinds.flat_map(|kind| SIZES.map(|n| (kind, n)))
}

fn names() -> impl Iterator<Item = String> {
    all().map(|(kind, n)| name(kind, n))
}

fn name(kind: Kind, n: usize) -> String {
    format!("{}-{n}", kind.0)
}

/// Nothing if there are no rounds.
fn compare(rounds: usize) -> Option<()> {
    if rounds == 0 {
        return None;
    }
    println!("{rounds} rounds of each side in turns. Median times of one call in microseconds;");
    println!("quartiles of the ratio ours / theirs; the ratio of the fastest rounds.");
    println!();
    println!("| case | ours | theirs | lower | median | upper | fastest |");
    println!("|---|---|---|---|---|---|---|");
    for (kind, n) in all() {
        let mut task = kind.1(n);
        task.assert_same_answers();
        println!(
            "{}",
            row(&name(kind, n), &rounds::measure(&mut task, rounds))
        );
    }
    Some(())
}

fn row(name: &str, measured: &Measured) -> String {
    let Measured {
        ours,
        theirs,
        ratio: [lower, median, upper],
        fastest,
    } = measured;
    let ratios = format!("{lower:.2} | {median:.2} | {upper:.2} | {fastest:.2}");
    format!("| {name} | {ours:.2} | {theirs:.2} | {ratios} |")
}

/// Runs one case so many times, for a tool that counts instructions.
fn count(wanted: &str, side: &str, times: &str) -> Option<()> {
    let (kind, n) = all().find(|(kind, n)| name(*kind, *n) == wanted)?;
    let side = match side {
        "ours" => Side::Ours,
        "theirs" => Side::Theirs,
        _ => return None,
    };
    let times = times.parse().ok()?;
    kind.1(n).run(side, times);
    Some(())
}

#[cfg(test)]
mod tests {
    use super::*;

    #[test]
    fn every_case_is_found_by_its_name() {
        for name in names().filter(|name| name.ends_with("-4")) {
            assert_eq!(count(&name, "ours", "1"), Some(()), "{name}");
            assert_eq!(count(&name, "theirs", "1"), Some(()), "{name}");
        }
    }

    #[test]
    fn other_words_are_refused() {
        for [name, side, times] in [
            ["eliminate-shares-5", "ours", "1"],
            ["eliminate-shares-4", "mine", "1"],
            ["eliminate-shares-4", "ours", "-1"],
        ] {
            assert_eq!(count(name, side, times), None);
        }
        assert_eq!(compare(0), None);
    }
}
