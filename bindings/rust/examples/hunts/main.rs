//! Hunts for what is wrong with objects that are wrong on purpose.
//!
//! `hunts SEED` tells what is found of each. `hunts figures HUNTS RUNS` prints how many hunts of
//! two seconds find it, how long they take and how small it becomes, and so many runs of each right
//! form.

mod objects;

use objects::case::Outcome;
use objects::{Case, cases};
use std::process::ExitCode;
use std::time::Duration;

const TWO_SECONDS: Duration = Duration::from_secs(2);

fn main() -> ExitCode {
    let words: Vec<_> = std::env::args().skip(1).collect();
    let words: Vec<_> = words.iter().map(String::as_str).collect();
    let numbers = |words: &[&str]| {
        words
            .iter()
            .map(|it| it.parse().ok())
            .collect::<Option<Vec<u64>>>()
    };
    match (
        words.first(),
        numbers(&words),
        numbers(words.get(1..).unwrap_or(&[])),
    ) {
        (None, ..) => tell(0),
        (_, Some(seed), _) if seed.len() == 1 => tell(seed[0]),
        (Some(&"figures"), _, Some(figures)) if figures.len() == 2 => {
            measure(figures[0], figures[1])
        }
        _ => {
            eprintln!("usage: hunts [SEED] | hunts figures HUNTS RUNS");
            ExitCode::from(2)
        }
    }
}

fn tell(seed: u64) -> ExitCode {
    let mut all_found = true;
    for case in cases() {
        let outcome = (case.wrong)(seed, 100_000, Duration::MAX);
        all_found &= case.is_found(&outcome) && outcome.repeats;
        println!("== {}\n\n{}", case.name, outcome.told);
    }
    ExitCode::from(u8::from(!all_found))
}

fn measure(hunts: u64, runs: u64) -> ExitCode {
    println!(
        "| Wrong object | {hunts} hunts: found | again | runs, mean | most | ms, mean | most \
         | small: calls, median | most | \
         switches, median | most |"
    );
    println!("|---|---|---|---|---|---|---|---|---|---|---|");
    let wrong: Vec<_> = cases()
        .iter()
        .map(|case| measure_wrong(case, hunts))
        .collect();
    println!(
        "\n| Right object | runs | blamed | runs a second | steps a second |\n|---|---|---|---|---|"
    );
    let right: Vec<_> = cases()
        .iter()
        .map(|case| measure_right(case, runs))
        .collect();
    ExitCode::from(u8::from(wrong.contains(&false) || right.contains(&false)))
}

// Whether each hunt found what is wrong, and all of it came again.
fn measure_wrong(case: &Case, hunts: u64) -> bool {
    let all: Vec<_> = (0..hunts)
        .map(|seed| (case.wrong)(seed, u64::MAX, TWO_SECONDS))
        .collect();
    let found: Vec<_> = (all.iter()).filter(|it| case.is_found(it)).collect();
    let again = found.iter().filter(|it| it.repeats).count();
    let sorted = |of: fn(&Outcome) -> u64| {
        let mut numbers: Vec<_> = found.iter().map(|it| of(it)).collect();
        numbers.sort_unstable();
        numbers
    };
    let mean = |numbers: &[u64]| numbers.iter().sum::<u64>() as f64 / numbers.len().max(1) as f64;
    let most = |numbers: &[u64]| numbers.last().copied().unwrap_or(0);
    let median = |numbers: &[u64]| numbers.get(numbers.len() / 2).copied().unwrap_or(0);
    let (runs, times) = (
        sorted(|it| it.runs),
        sorted(|it| it.time.as_millis() as u64),
    );
    let (calls, switches) = (
        sorted(|it| it.calls as u64),
        sorted(|it| it.switches as u64),
    );
    println!(
        "| {} | {} | {again} | {:.1} | {} | {:.0} | {} | {} | {} | {} | {} |",
        case.name,
        found.len(),
        mean(&runs),
        most(&runs),
        mean(&times),
        most(&times),
        median(&calls),
        most(&calls),
        median(&switches),
        most(&switches),
    );
    for outcome in all.iter().filter(|it| !case.is_found(it)) {
        eprintln!(
            "{}: {:?} in {} runs",
            case.name, outcome.found, outcome.runs
        );
    }
    again as u64 == hunts
}

// Whether nothing was found.
fn measure_right(case: &Case, runs: u64) -> bool {
    let outcome = (case.right)(1, runs, Duration::MAX);
    let seconds = outcome.time.as_secs_f64();
    println!(
        "| {} | {} | {} | {:.0} | {:.0} |",
        case.name,
        outcome.runs,
        u8::from(outcome.found.is_some()),
        outcome.runs as f64 / seconds,
        outcome.turns as f64 / seconds,
    );
    if outcome.found.is_some() {
        eprintln!("{}", outcome.told);
    }
    outcome.found.is_none()
}
