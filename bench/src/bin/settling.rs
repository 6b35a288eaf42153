//! How many passes there and back settle a box, and how many sweeps: on balances as a
//! dairy has them, from the start box and from the box that elimination writes.

use kifwaleb_bench::archive::Archive;
use kifwaleb_bench::case::Case;
use kifwaleb_bench::generator::Random;
use kifwaleb_bench::reference::{Call, Interval, Outcome, Pass, System, DONE, MOST_SWEEPS};
use kifwaleb_bench::side::Side;
use std::env;
use std::time::Instant;

const ONE: i64 = 1_000_000;
const BALANCES: usize = 1_000;

/// Each call is timed so often, in turns with the other; the fastest counts.
const TIMES: usize = 3;

const COLUMNS: &str = "sweeps | passes | passes / sweeps | time of passes / time of sweeps";

/// Which way nine in ten shares go.
#[derive(Clone, Copy, Debug, PartialEq, Eq)]
enum Milk {
    /// From lower numbers to higher ones.
    Along,
    Against,
    AnyWay,
}

const WAYS: [Milk; 3] = [Milk::Along, Milk::Against, Milk::AnyWay];

/// Which call writes the first box.
#[derive(Clone, Copy, Debug)]
enum Start {
    StartBox,
    Elimination,
}

/// The two calls on one box.
struct Settled {
    /// Whether sweeps and passes settled, and their counts.
    both: [(bool, f64); 2],
    /// Of the passes' time to the sweeps'.
    time: f64,
}

fn main() {
    let seed = env::args().nth(1).map_or(Ok(1), |seed| seed.parse());
    let seed = seed.expect("usage: settling [SEED]");
    println!("{BALANCES} balances, seed {seed}. Where both calls settled: 10 %, median, 90 %.");
    println!();
    println!("| from | milk runs | boxes | sweeps settled | passes settled | {COLUMNS} |");
    println!("|---|---|---|---|---|---|---|---|---|");
    let mut random = Random::new(seed);
    let ways = WAYS.into_iter().cycle().take(BALANCES);
    let balances = ways.map(|milk| (milk, Case::new(&balance(&mut random, milk))));
    let balances: Vec<_> = balances.collect();
    for start in [Start::StartBox, Start::Elimination] {
        let boxes = balances.iter().filter_map(|(milk, balance)| {
            let lent = start.begun(balance)?;
            Some((*milk, settled(&lent)))
        });
        let boxes: Vec<_> = boxes.collect();
        for milk in WAYS {
            let some = boxes.iter().filter(|(way, _)| *way == milk);
            let some: Vec<_> = some.map(|(_, settled)| settled).collect();
            print_row(&format!("{start:?} | {milk:?}"), &some);
        }
        let all: Vec<_> = boxes.iter().map(|(_, settled)| settled).collect();
        print_row(&format!("{start:?} | all"), &all);
    }
}

/// The upper shares of every vat come to the same, at most 0.99: of all that it gives, or
/// of all that it gets. At most 9 tonnes come from the farm.
fn balance(random: &mut Random, milk: Milk) -> System {
    let n = random.between(8, 32) as usize;
    let whole = random.between(ONE / 2, 990_000);
    let gives = random.once_in(2);
    let above = match milk {
        Milk::Along => Some(gives),
        Milk::Against => Some(!gives),
        Milk::AnyWay => None,
    };
    let mut balance = System::noughts(n);
    for vat in 1..=n {
        let parts: Vec<_> = (0..random.between(1, 4))
            .map(|_| random.between(1, 9))
            .collect();
        for part in &parts {
            let other = other(random, n, vat, above);
            let (i, j) = if gives { (other, vat) } else { (vat, other) };
            let share = whole * part / parts.iter().sum::<i64>();
            let more = balance.a(i, j).hi;
            balance.set_a(i, j, metered(random, share + more));
        }
    }
    for _ in 0..random.between(1, 3) {
        let vat = random.between(1, n as i64) as usize;
        let delivery = random.between(ONE, 3 * ONE);
        balance.set_f(vat, metered(random, delivery));
    }
    balance
}

/// Nine times in ten one that is above the vat, or below it, if that is asked for.
fn other(random: &mut Random, n: usize, vat: usize, above: Option<bool>) -> usize {
    let (low, high) = match above {
        Some(true) if vat < n && !random.once_in(10) => (vat + 1, n),
        Some(false) if vat > 1 && !random.once_in(10) => (1, vat - 1),
        _ => (1, n),
    };
    random.between(low as i64, high as i64) as usize
}

/// Up to 1 % off its middle, either way.
fn metered(random: &mut Random, upper: i64) -> Interval {
    let off = random.between(0, ONE / 100);
    Interval::new(upper - upper * 2 * off / (ONE + off), upper)
}

impl Start {
    /// Nothing if the call that writes the box is refused.
    fn begun(self, balance: &Case) -> Option<Case> {
        let mut lent = balance.clone();
        let n = lent.n;
        let outcome = match self {
            Start::StartBox => Archive.start_box(n, lent.slices()),
            Start::Elimination => Archive.eliminate(Call::EliminateBalance, n, lent.slices()),
        };
        (outcome == Outcome::DONE).then_some(lent)
    }
}

fn settled(lent: &Case) -> Settled {
    let mut seconds = [f64::MAX; 2];
    let mut ends = Vec::new();
    for _ in 0..TIMES {
        ends = Vec::new();
        for (pass, fastest) in Pass::ALL.into_iter().zip(&mut seconds) {
            let mut case = lent.clone();
            let start = Instant::now();
            let outcome = Archive.sweep(pass, case.n, case.slices(), MOST_SWEEPS);
            *fastest = fastest.min(start.elapsed().as_secs_f64());
            ends.push((outcome, case.bounds));
        }
    }
    let settled = |outcome: Outcome| outcome.number == DONE;
    if settled(ends[0].0) && settled(ends[1].0) {
        assert_eq!(ends[0].1, ends[1].1, "both settle to the same box");
    }
    Settled {
        both: [0, 1].map(|call| (settled(ends[call].0), ends[call].0.count as f64)),
        time: seconds[1] / seconds[0],
    }
}

fn print_row(name: &str, boxes: &[&Settled]) {
    let [sweeps, passes] = [0, 1].map(|call| boxes.iter().filter(|end| end.both[call].0).count());
    let both = boxes
        .iter()
        .filter(|end| end.both.iter().all(|call| call.0));
    let quantiles = |value: fn(&Settled) -> f64, digits: usize| {
        let mut values: Vec<_> = both.clone().map(|end| value(end)).collect();
        values.sort_by(f64::total_cmp);
        let at = |percent| values.get(values.len().saturating_sub(1) * percent / 100);
        [10, 50, 90]
            .map(|percent| format!("{:.digits$}", at(percent).unwrap_or(&f64::NAN)))
            .join(", ")
    };
    println!(
        "| {name} | {} | {sweeps} | {passes} | {} | {} | {} | {} |",
        boxes.len(),
        quantiles(|end| end.both[0].1, 0),
        quantiles(|end| end.both[1].1, 0),
        quantiles(|end| end.both[1].1 / end.both[0].1, 2),
        quantiles(|end| end.time, 2),
    );
}
