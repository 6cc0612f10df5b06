//! The program: options, what is said, and the exit status.

mod options;

use crate::cases::{Found, Plan};
use crate::run::{run, run_case};
use crate::tally::Tally;
use options::Options;
use shell::console::print;
use shell::{say, warn};
use std::process::ExitCode;
use std::time::{Duration, Instant};

/// Failing cases that are told in full.
const TOLD: u64 = 10;

/// Runs the comparison that these words ask for.
pub fn main(words: &[String]) -> ExitCode {
    if words.iter().any(|word| word == "--help" || word == "-h") {
        say!("{}", options::USAGE);
        return ExitCode::SUCCESS;
    }
    let options = match Options::parse(words) {
        Ok(options) => options,
        Err(message) => return bad(&message),
    };
    let mut plan = Plan::new(options.seed);
    if plan.planned().checked_add(options.cases).is_none() {
        return bad(&format!("--cases is {}, too many to count", options.cases));
    }
    say!("seed {}", options.seed);
    let (passed, failed) = match options.only {
        Some(number) => run_one(options.seed, &mut plan, number),
        None => run_all(&options, &mut plan),
    };
    say!("{passed} passed, {failed} failed");
    ExitCode::from(u8::from(failed > 0))
}

fn bad(message: &str) -> ExitCode {
    warn!("{message}");
    ExitCode::from(2)
}

/// One case, which reaches the numbers that it reaches.
fn run_one(seed: u64, plan: &mut Plan, number: u64) -> (u64, u64) {
    let found = run_case(plan, number);
    say!("case {number}: {}", found.story);
    tell(seed, number, &found);
    let mut tally = Tally::default();
    tally.add(&found);
    (tally.compared() - tally.wrong(), tally.wrong())
}

/// The planned cases, then random ones until the count or the time is reached.
fn run_all(options: &Options, plan: &mut Plan) -> (u64, u64) {
    let start = Instant::now();
    let mut shown = start;
    let planned = plan.planned();
    say!("{planned} planned cases, then {}", options.extent());
    let numbers = (0..).take_while(|&number| {
        let more = match options.seconds {
            Some(seconds) => start.elapsed() < Duration::from_secs(seconds),
            None => number < planned + options.cases,
        };
        more || number < planned
    });
    let tally = run(plan, numbers, |number, found, tally| {
        if !found.failures.is_empty() && tally.failing_cases() <= TOLD {
            tell(options.seed, number, found);
        }
        if shown.elapsed() >= Duration::from_secs(2) {
            shown = Instant::now();
            warn!(
                "{} cases, {} calls compared, {} failed, {} s",
                number + 1,
                tally.compared(),
                tally.wrong(),
                start.elapsed().as_secs()
            );
        }
    });
    print(format_args!("{}{}", tally.table(), tally.costs()));
    let verdict = tally.verdict();
    for number in &verdict.missing {
        say!("not reached: {number}");
    }
    (verdict.passed, verdict.failed)
}

/// Tells how a case failed, and how to repeat it.
fn tell(seed: u64, number: u64, found: &Found) {
    if found.failures.is_empty() {
        return;
    }
    say!("FAILED case {number}: {}", found.story);
    for failure in found.failures.iter().take(3) {
        say!("  {failure}");
    }
    say!("  repeat: bursztok-compare --seed {seed} --case {number}");
}
