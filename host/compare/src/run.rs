//! A run through cases, with its tally.

use crate::cases::{Found, Plan};
use crate::tally::Tally;
use std::panic::{catch_unwind, AssertUnwindSafe};

/// Runs the cases of these numbers; `told` hears of each, with the tally up to it.
pub fn run(
    plan: &mut Plan,
    numbers: impl Iterator<Item = u64>,
    mut told: impl FnMut(u64, &Found, &Tally),
) -> Tally {
    let mut tally = Tally::default();
    for number in numbers {
        let found = run_case(plan, number);
        tally.add(&found);
        told(number, &found, &tally);
    }
    tally
}

/// Runs a case; a panic on either side is a failure of the case.
pub fn run_case(plan: &mut Plan, number: u64) -> Found {
    catch_unwind(AssertUnwindSafe(|| plan.run(number))).unwrap_or_else(|_| Found {
        story: "it panicked".to_string(),
        failures: vec!["the case panicked; see above".to_string()],
        ..Found::default()
    })
}

#[cfg(test)]
mod tests {
    use super::run;
    use crate::cases::Plan;

    #[test]
    fn a_run_that_is_too_short_does_not_pass() {
        let mut numbers = Vec::new();
        let tally = run(&mut Plan::new(1), 0..10, |number, _, _| {
            numbers.push(number)
        });
        assert_eq!(numbers, (0..10).collect::<Vec<u64>>());
        let verdict = tally.verdict();
        assert!(verdict.passed >= 10, "{verdict:?}");
        assert!(verdict.missing.contains(&"response, 9".to_string()));
        assert_eq!(verdict.failed, verdict.missing.len() as u64);
    }
}
