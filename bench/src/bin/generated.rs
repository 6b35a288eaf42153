//! Writes a file of the generator's cases, edge cases and random ones, in the
//! form of the stored cases, and the lines that the program 'vectors' must print
//! for them. Of cases that end alike only some are taken, and most have few
//! vats: the program takes in so many bytes and no more.

use kifwaleb_bench::case::Case;
use kifwaleb_bench::case_file::{entries, lines, written, Entry, READ_LENGTHS};
use kifwaleb_bench::comparison::{Boxes, HalfList, Search, StartBox, Transfers};
use kifwaleb_bench::generator::{
    boxes_up_to, edge_cases, edge_lists, edge_pairs, edge_texts, half_lists_up_to,
    random_cases_up_to, random_lists_up_to, random_pairs, random_texts_up_to, searches,
    starts_up_to, transfers_up_to, Random,
};
use kifwaleb_bench::reference::{
    read_text, Call, Interval, Operation, LIMIT, MOST_BYTES, MOST_EQUATIONS, MOST_TRANSFERS,
    TRANSFER,
};
use kifwaleb_bench::side::{Reference, Side};
use kifwaleb_bench::sweep_list::SweepList;
use kifwaleb_bench::text_case::TextCase;
use std::collections::HashMap;
use std::ops::RangeInclusive;
use std::path::PathBuf;
use std::{env, fs, io};

/// As many bytes as the program takes in.
const MOST_CASE_BYTES: usize = 1_048_576;

const SEED: u64 = 1;
const FEW_VATS: usize = 4;
const SHORT: usize = 80;
const RANDOM: usize = 40_000;

fn main() -> io::Result<()> {
    let directory = env::args_os().nth(1).map(PathBuf::from);
    let directory = directory.expect("usage: generated DIRECTORY");
    let mut all = Vec::new();
    for operation in Operation::ALL {
        all.extend(steps(operation));
    }
    for call in Call::ALL {
        all.extend(eliminations(call));
    }
    all.extend(starts());
    all.extend(sweeps());
    all.extend(halves());
    all.extend(transfers());
    all.extend(choices());
    all.extend(texts());
    all.extend(finds());
    let file = written(&all);
    assert!(
        file.len() <= MOST_CASE_BYTES,
        "{} bytes are too many",
        file.len()
    );
    assert_eq!(entries(&file), all);
    let lines = lines(&all, &Reference);
    fs::create_dir_all(directory.join("data"))?;
    fs::write(directory.join("data/cases"), &file)?;
    fs::write(directory.join("stdout"), lines.join("\n") + "\n")?;
    println!("{} cases, {} bytes", lines.len(), file.len());
    Ok(())
}

/// Of the cases, each as its entries, so many of each kind, in so many bytes.
/// They are taken from everywhere in the row.
fn chosen(cases: Vec<Vec<Entry>>, of_a_kind: usize, bytes: usize) -> Vec<Entry> {
    let mut random = Random::new(SEED);
    let mut places: Vec<_> = (0..cases.len()).collect();
    places.sort_by_cached_key(|_| random.bits());
    let mut kinds: HashMap<String, usize> = HashMap::new();
    let mut taken = 0;
    places.retain(|place| {
        let count = kinds.entry(kind(&cases[*place])).or_default();
        let size = written(&cases[*place]).len();
        let wanted = *count < of_a_kind && taken + size <= bytes;
        *count += usize::from(wanted);
        taken += if wanted { size } else { 0 };
        wanted
    });
    places.sort_unstable();
    places
        .into_iter()
        .flat_map(|place| cases[place].clone())
        .collect()
}

/// What tells one case from another: how its calls end, and how many vats, which
/// signs, or how long a text and which start it has.
fn kind(entries: &[Entry]) -> String {
    let lines = lines(entries, &Reference);
    if let [Entry::Text(text), Entry::Find(from, _)] = entries {
        let none = lines[0].ends_with("none");
        return format!("{} {} {none}", text.len(), from % 8);
    }
    match &entries[0] {
        Entry::Text(_) => {
            let sheet = lines[2].trim_end_matches('|').rsplit(['|', ':']);
            sheet.take(1).collect()
        }
        Entry::Narrower(Boxes { n, first, second }) => {
            let chosen = Reference.narrower(*n, first, second);
            format!("{n} {} {} {}", first.len(), second.len(), chosen == first)
        }
        first => {
            let ends = lines.iter().map(|line| ending(line));
            format!("{} {}", ends.collect::<String>(), size(first))
        }
    }
}

/// Number and place; of a sweep call also whether its count is above 1. Those that come in
/// lists of calls are taken without the place, since a list has many ways to end.
fn ending(line: &str) -> String {
    let words: Vec<_> = line.split(' ').collect();
    match words[1] {
        "S" | "Y" => format!("{}{}{}", words[1], words[2], words[4] > "1"),
        "G" | "H" => format!("{} {}", words[1..4].join(" "), words[4] > "1"),
        _ => words[1..4].join(" "),
    }
}

fn size(entry: &Entry) -> String {
    let signs = |i: &Interval| (i.lo.signum(), i.hi.signum());
    match entry {
        Entry::Step(_, a, b) => format!("{:?} {:?}", signs(a), signs(b)),
        Entry::System(lent) => lent.n.to_string(),
        Entry::List(lent) => format!("{} {}", lent.n, lent.matrix.len().min(8 * TRANSFER)),
        _ => String::new(),
    }
}

fn steps(operation: Operation) -> Vec<Entry> {
    let edge = edge_pairs().step_by(17).take(RANDOM * 8).step_by(2);
    let pairs = edge.chain(random_pairs(operation, SEED).take(RANDOM));
    let step = |(a, b): (Interval, Interval)| vec![Entry::Step(operation, a, b)];
    // Sums and differences are exact: fewer of them tell as much.
    let bytes = match operation {
        Operation::Sum | Operation::Difference => 14_000,
        Operation::Product | Operation::Quotient => 28_000,
    };
    chosen(pairs.map(step).collect(), 6, bytes)
}

fn has_few_vats(lent: &Case) -> bool {
    let numbers = lent.matrix.len() + lent.right_side.len() + lent.bounds.len();
    numbers <= 2 * FEW_VATS * (FEW_VATS + 2)
}

/// As many vats as can be; the first of these are the documents' samples.
fn has_most_vats(lent: &Case) -> bool {
    lent.n == MOST_EQUATIONS && lent.matrix.len() == 2 * lent.n * lent.n
}

/// Some words of 64 bits away from 0.
fn has_far_sums(lent: &Case) -> bool {
    farthest_ends(lent) > 30
}

fn farthest_ends(lent: &Case) -> usize {
    let ends = lent.matrix.iter().filter(|end| end.abs() == LIMIT);
    ends.count()
}

fn eliminations(call: Call) -> Vec<Entry> {
    let edge = edge_cases(call).filter(has_few_vats).step_by(5);
    let random = random_cases_up_to(FEW_VATS, call, SEED).take(RANDOM);
    let cases = edge.chain(random.filter(has_few_vats));
    let entries = |lent| vec![Entry::System(lent), Entry::Eliminate(call)];
    let mut all = chosen(cases.map(entries).collect(), 5, 80_000);
    let large = edge_cases(call).filter(has_most_vats).take(1);
    all.extend(large.flat_map(entries));
    all
}

fn starts() -> Vec<Entry> {
    let lists = starts_up_to(FEW_VATS, SEED).take(2 * RANDOM);
    let cases = lists.map(|StartBox(mut list)| {
        list.lent.bounds.fill(-7);
        list.lent
    });
    let cases = cases.filter(has_few_vats);
    let entries = |lent| vec![Entry::System(lent), Entry::StartBox];
    chosen(cases.map(entries).collect(), 40, 20_000)
}

fn choices() -> Vec<Entry> {
    let boxes = boxes_up_to(FEW_VATS, SEED).take(RANDOM);
    let entries = boxes.map(|boxes| vec![Entry::Narrower(boxes)]);
    chosen(entries.collect(), 3, 9_000)
}

fn sweeps() -> Vec<Entry> {
    let edge = || edge_lists().filter(|list| has_few_vats(&list.lent));
    let random = random_lists_up_to(FEW_VATS, SEED).take(RANDOM / 2);
    let random = random.filter(|list| has_few_vats(&list.lent));
    let lists = edge().step_by(3).chain(random);
    let entries = |list: SweepList| -> Vec<_> {
        let calls = list.calls.iter();
        let calls = calls.map(|call| Entry::Sweep(call.pass, call.allowed));
        let system = [Entry::System(list.lent)];
        system.into_iter().chain(calls).collect()
    };
    let mut all = chosen(lists.map(entries).collect(), 2, 112_000);
    let large = || edge_lists().filter(|list| has_most_vats(&list.lent));
    let far = large().filter(|list| has_far_sums(&list.lent)).step_by(20);
    all.extend(large().take(1).chain(far.take(8)).flat_map(entries));
    all
}

/// Of those that load one system, since another one begins with an empty state. Three
/// of the farthest products on either side of the diagonal are beyond 64 bits.
fn halves() -> Vec<Entry> {
    let short = |vats| {
        let lists = half_lists_up_to(vats, SEED).take(RANDOM);
        lists.filter(|list| list.loads.len() == 1 && list.calls.len() <= 12)
    };
    let few = short(FEW_VATS).filter(|list| has_few_vats(&list.loads[0]));
    let far = short(3 * FEW_VATS).filter(|list| farthest_ends(&list.loads[0]) >= 12);
    let entries = |list: HalfList| -> Vec<_> {
        let system = list.loads.into_iter().map(Entry::System);
        let calls = list.calls.into_iter();
        system
            .chain(calls.map(|(call, length)| Entry::Half(call, length)))
            .collect()
    };
    let mut all = chosen(few.map(entries).collect(), 1, 40_000);
    all.extend(chosen(far.map(entries).collect(), 1, 16_000));
    all
}

/// Few vats; a few more with sums in two words, so that rows have several pairs of records; and
/// then as many transfers as there may be, and one more, for all three calls.
fn transfers() -> Vec<Entry> {
    let calls = || transfers_up_to(FEW_VATS, SEED);
    let few = calls().filter(|listed| has_few_vats(&listed.lent));
    let entries = |listed: Transfers| vec![Entry::List(listed.lent), Entry::Transfers(listed.call)];
    let mut all = chosen(few.take(RANDOM).map(entries).collect(), 3, 80_000);
    let two_words = calls().filter(|listed| {
        let vats = FEW_VATS..=FEW_VATS + 2;
        vats.contains(&listed.lent.n) && listed.takes_two_words()
    });
    let two_words = two_words.take(RANDOM / 10).map(entries);
    all.extend(chosen(two_words.collect(), 4, 40_000));
    for (n, count) in [(MOST_EQUATIONS, MOST_TRANSFERS), (1, MOST_TRANSFERS + 1)] {
        let long = |lent: &Case| lent.n == n && lent.matrix.len() == count * TRANSFER;
        let three = calls().filter(|listed| long(&listed.lent)).take(3);
        let mut three = three.peekable();
        all.extend(three.peek().map(|listed| Entry::List(listed.lent.clone())));
        all.extend(three.map(|listed| Entry::Transfers(listed.call)));
    }
    all
}

fn texts() -> Vec<Entry> {
    let some = |lengths: RangeInclusive<usize>| {
        edge_texts().filter(move |case| lengths.contains(&case.text.len()))
    };
    let random = random_texts_up_to(FEW_VATS, SEED).take(RANDOM / 2);
    let random = random.filter(|case| case.text.len() <= SHORT);
    let short = some(0..=SHORT).chain(random).map(text_calls);
    let (faulty, good): (Vec<_>, _) = short.partition(|calls| kind(calls).starts_with("refused 8"));
    let mut all = chosen(faulty, 400, 88_000);
    all.extend(chosen(good, 8, 20_000));
    // 32 and 33 vats without shares, and the greatest length that is judged.
    let great = some(4_300..=5_000).take(4);
    let long = some(MOST_BYTES..=MOST_BYTES + 1).step_by(6).take(2);
    all.extend(great.chain(long).flat_map(text_calls));
    all
}

/// Of the searches with the byte sought at one place and at several.
fn finds() -> Vec<Entry> {
    let some = searches(SEED).step_by(31).take(RANDOM);
    let entries = some.map(|search: Search| {
        let find = Entry::Find(search.from, search.sought);
        vec![Entry::Text(search.bytes()), find]
    });
    chosen(entries.collect(), 1, 45_000)
}

fn text_calls(case: TextCase) -> Vec<Entry> {
    let [matrix, right_side] = READ_LENGTHS;
    let n = read_text(&case.text).map_or(1, |read| read.n);
    let vat = [n, 0, n + 1, 1][case.text.len() % 4];
    vec![
        Entry::Text(case.text),
        Entry::Read(matrix, right_side),
        Entry::Name(vat),
        Entry::Print(case.out.len().min(4_096)),
        Entry::Report(case.out.len().min(4_096)),
    ]
}
