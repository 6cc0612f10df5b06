//! Shows that the comparison can fail: the library with one fault planted must be caught, for
//! each of the faults by name.
//!
//! The faults are planted at the calls of the C library, below the bindings and the comparison, so
//! that a comparison which does not use the library catches none of them.

mod faults;
#[cfg(target_arch = "x86_64")]
mod wrapped;

use compare::cases::Plan;
use compare::run::{run, run_case};
use faults::{plant, Planted};
use second::testing::calls::Call;
use shell::console::arguments;
use shell::options::{Form, Options};
use shell::{say, warn};
use std::process::ExitCode;

const USAGE: &str = "\
bursztok-planted [--list]
bursztok-planted --fault NAME [WORD..]

Plants one fault after the other in the library's calls and compares them with the second program:
each fault must be caught, and the case that caught it must pass without the fault. Then a run that
never reaches some number of a call must fail.

  --list        only the names of the faults
  --fault NAME  plants this fault and is bursztok-compare, with the words that follow

The last line is 'N passed, M failed'. Exit status: 0 all caught, 1 some not, 2 bad usage.";

const FORM: Form = Form {
    name: "bursztok-planted",
    values: &[],
    flags: &["list"],
    words: &[],
};

const SEED: u64 = 1;
/// So many faults that are not caught end the run: each goes through all cases of its call.
const ENOUGH: usize = 3;

fn main() -> ExitCode {
    let words = arguments();
    if words.iter().any(|word| word == "--help" || word == "-h") {
        say!("{USAGE}");
        return ExitCode::SUCCESS;
    }
    if let [option, name, rest @ ..] = &words[..] {
        if option == "--fault" {
            return compare_with(name, rest);
        }
    }
    match Options::parse(FORM, &words) {
        Ok(options) if options.has("list") => {
            for fault in faults::all() {
                say!("{}", fault.name());
            }
            return ExitCode::SUCCESS;
        }
        Ok(_) => {}
        Err(message) => {
            warn!("{message}");
            return ExitCode::from(2);
        }
    }
    if !cfg!(target_arch = "x86_64") {
        warn!("the library is not linked on this machine: no fault can be planted");
        return ExitCode::from(2);
    }
    let mut plan = Plan::new(SEED);
    let faults = faults::all();
    let mut caught = 0;
    for (tried, fault) in faults.iter().enumerate() {
        caught += usize::from(try_fault(&mut plan, fault));
        if tried + 1 - caught == ENOUGH {
            say!("{ENOUGH} faults were not caught: the others are left out");
            break;
        }
    }
    say!("{caught} of {} planted faults caught", faults.len());
    let unreached = try_unreached(&mut plan);
    let (passed, failed) = (
        caught + usize::from(unreached),
        faults.len() - caught + usize::from(!unreached),
    );
    say!("{passed} passed, {failed} failed");
    ExitCode::from(u8::from(failed > 0))
}

/// The comparison as it is run, with a fault in the library.
fn compare_with(name: &str, words: &[String]) -> ExitCode {
    let fault = faults::all().into_iter().find(|fault| fault.name() == name);
    if fault.is_none() {
        warn!("bursztok-planted: '{name}' is no fault; try --list");
        return ExitCode::from(2);
    }
    plant(fault);
    compare::program::main(words)
}

/// Whether the fault is caught, by a case that passes without it.
fn try_fault(plan: &mut Plan, fault: &Planted) -> bool {
    for number in plan.about(fault.call, fault.wrong.number()) {
        plant(Some(*fault));
        let found = run_case(plan, number);
        plant(None);
        if found.failures.is_empty() {
            continue;
        }
        let without = run_case(plan, number);
        let name = fault.name();
        return match without.failures.first() {
            None => {
                say!("caught      {name}: case {number}, {}", found.story);
                true
            }
            Some(failure) => {
                say!("NOT SHOWN   {name}: case {number} fails without it, {failure}");
                false
            }
        };
    }
    say!("NOT CAUGHT  {}", fault.name());
    false
}

/// Whether a run fails that has no fault, and for every call but one reaches all its numbers.
fn try_unreached(plan: &mut Plan) -> bool {
    let mut noticed = true;
    for left_out in Call::ALL {
        let others = Call::ALL.into_iter().filter(|&call| call != left_out);
        let numbers = others.flat_map(|call| plan.about(call, None).into_iter().take(3));
        let numbers: Vec<u64> = numbers.collect();
        let verdict = run(plan, numbers.into_iter(), |_, _, _| {}).verdict();
        let name = left_out.name();
        let missing = |&number: &u32| verdict.missing.contains(&format!("{name}, {number}"));
        if verdict.failed == 0 || !left_out.numbers().iter().all(missing) {
            say!("NOT CAUGHT  a run without the {name}: {verdict:?}");
            noticed = false;
        }
    }
    if noticed {
        say!("caught      numbers that a run never reaches");
    }
    noticed
}
