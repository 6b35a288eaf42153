//! Compares the archive with the reference.

mod program;

use kifwaleb_bench::archive::Archive;
use kifwaleb_bench::comparison::{compare, goals, Elimination, Goal, Pair, Trial};
use kifwaleb_bench::generator::{
    boxes_up_to, edge_cases, edge_lists, edge_pairs, edge_texts, half_lists_up_to, insides,
    random_cases, random_lists, random_pairs, random_texts, searches, starts_up_to,
    symmetric_insides, transfers_up_to,
};
use kifwaleb_bench::plan::{Plan, USAGE};
use kifwaleb_bench::reference::{Call, Operation, MOST_EQUATIONS};
use kifwaleb_bench::samples;
use std::env;
use std::process::ExitCode;

fn main() -> ExitCode {
    let Some(plan) = Plan::read(env::args().skip(1)) else {
        eprintln!("{USAGE}");
        return ExitCode::from(2);
    };
    println!("{plan:?}");
    if all_hold(&plan) {
        ExitCode::SUCCESS
    } else {
        ExitCode::FAILURE
    }
}

fn all_hold(plan: &Plan) -> bool {
    samples_hold()
        && Operation::ALL
            .into_iter()
            .all(|step| steps_hold(plan, step))
        && Call::ALL
            .into_iter()
            .all(|call| eliminations_hold(plan, call))
        && starts_and_choices_hold(plan)
        && sweeps_hold(plan)
        && half_rows_hold(plan)
        && transfers_hold(plan)
        && reports_hold(plan)
        && searches_hold(plan)
        && boxes_lie_inside(plan)
        && program::holds(plan)
}

/// True if the archive gives every answer that the documents write down.
fn samples_hold() -> bool {
    println!("comparing the samples of the documents");
    let unmet = samples::unmet(&Archive);
    unmet
        .iter()
        .for_each(|line| println!("sample not met\n  {line}"));
    unmet.is_empty()
}

fn steps_hold(plan: &Plan, operation: Operation) -> bool {
    let pair = |(a, b)| Pair { operation, a, b };
    let goals = || goals::of_step(operation);
    let (edge, random) = (edge_pairs(), random_pairs(operation, plan.seed));
    let name = operation.name();
    holds(name, "edge pairs", goals(), edge.map(pair), u64::MAX)
        && holds(name, "random pairs", goals(), random.map(pair), plan.pairs)
}

fn eliminations_hold(plan: &Plan, call: Call) -> bool {
    let elimination = |lent| Elimination { call, lent };
    let goals = || goals::of_elimination(call);
    let edge = edge_cases(call).map(elimination);
    let random = random_cases(call, plan.seed).map(elimination);
    let calls = plan.systems / Call::ALL.len() as u64;
    holds(call.name(), "edge systems", goals(), edge, u64::MAX)
        && holds(call.name(), "random systems", goals(), random, calls)
}

fn starts_and_choices_hold(plan: &Plan) -> bool {
    let starts = starts_up_to(MOST_EQUATIONS, plan.seed);
    let boxes = boxes_up_to(MOST_EQUATIONS, plan.seed);
    let [of_starts, of_boxes] = [goals::of_start_box(), goals::of_narrower()];
    holds(
        "start_box",
        "random systems",
        of_starts,
        starts,
        plan.starts,
    ) && holds("narrower", "random boxes", of_boxes, boxes, plan.boxes)
}

fn sweeps_hold(plan: &Plan) -> bool {
    let random = random_lists(plan.seed);
    holds(
        "sweeps",
        "edge calls",
        goals::of_sweeps(),
        edge_lists(),
        u64::MAX,
    ) && holds(
        "sweeps",
        "random calls",
        goals::of_sweeps(),
        random,
        plan.sweeps,
    )
}

fn half_rows_hold(plan: &Plan) -> bool {
    let lists = half_lists_up_to(MOST_EQUATIONS, plan.seed);
    let (goals, kind) = (goals::of_half_rows(), "random operations");
    holds("half_rows", kind, goals, lists, plan.operations)
}

fn transfers_hold(plan: &Plan) -> bool {
    let calls = transfers_up_to(MOST_EQUATIONS, plan.seed);
    let (goals, kind) = (goals::of_transfers(), "random calls");
    holds("transfers", kind, goals, calls, plan.transfers)
}

fn reports_hold(plan: &Plan) -> bool {
    let random = random_texts(plan.seed);
    holds(
        "report",
        "edge texts",
        goals::of_report(),
        edge_texts(),
        u64::MAX,
    ) && holds(
        "report",
        "random texts",
        goals::of_report(),
        random,
        plan.texts,
    )
}

fn searches_hold(plan: &Plan) -> bool {
    let (goals, searches) = (goals::of_search(), searches(plan.seed));
    let kind = "random searches";
    holds("first_byte", kind, goals, searches, plan.searches)
}

fn boxes_lie_inside(plan: &Plan) -> bool {
    let [former, symmetric] = [goals::of_inside(), goals::of_symmetric()];
    let kind = "random pairs of calls";
    let back = symmetric_insides(plan.seed);
    holds("inside", kind, former, insides(plan.seed), plan.inside)
        && holds("symmetric", kind, symmetric, back, plan.symmetric)
}

/// Compares one row and prints the difference, or what was reached. True if
/// nothing differs and the row reached everything: edge cases must not hide what
/// random cases miss, nor the reverse.
fn holds<T: Trial>(
    call: &str,
    kind: &str,
    goals: Vec<Goal>,
    trials: impl Iterator<Item = T>,
    calls: u64,
) -> bool {
    // Said beforehand, so that a crash in the archive can be placed.
    println!("comparing {call}, {kind}");
    match compare(goals, trials, calls, &Archive) {
        Err(difference) => {
            println!("{difference}");
            false
        }
        Ok(tally) => {
            println!("{call}, {} {kind}; {}", tally.calls(), tally.report());
            let unreached = tally.unreached();
            unreached
                .iter()
                .for_each(|goal| println!("  never reached: {goal}"));
            unreached.is_empty()
        }
    }
}
