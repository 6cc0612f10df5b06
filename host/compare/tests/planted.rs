//! The comparison can fail: a library with a planted fault is caught, for every fault.
#![cfg(target_arch = "x86_64")]

use second::Set;
use std::process::Command;

#[test]
fn every_planted_fault_is_caught() {
    let output = Command::new(env!("CARGO_BIN_EXE_bursztok-planted"))
        .output()
        .unwrap();
    let said = String::from_utf8(output.stdout).unwrap();
    assert!(output.status.success(), "{said}");
    let caught = said.lines().filter(|line| line.starts_with("caught "));
    assert!(caught.count() > 480, "{said}");
    assert!(said.ends_with(" passed, 0 failed\n"), "{said}");
}

/// The exit status and the last line of the comparison with a fault planted.
fn compared(words: &[&str]) -> (Option<i32>, String) {
    let output = Command::new(env!("CARGO_BIN_EXE_bursztok-planted"))
        .args(words)
        .output()
        .unwrap();
    let said = String::from_utf8(output.stdout).unwrap();
    let last = said.lines().last().unwrap_or_default().to_string();
    (output.status.code(), last)
}

#[test]
fn the_comparison_ends_red_with_a_fault_and_green_without() {
    let sizes = |fault| {
        let last_planned = last_planned();
        compared(&["--fault", fault, "--seed", "1", "--case", &last_planned])
    };
    // The last planned case asks for sizes alone.
    let (status, last) = sizes("kappa: off by one");
    assert_eq!(status, Some(1));
    // 0 and each set's number have a kappa.
    let failed = format!(" passed, {} failed", Set::ABOVE);
    assert!(last.contains(&failed), "{last}");
    let (status, last) = sizes("reader: set off by one");
    assert_eq!(status, Some(0));
    assert!(last.ends_with(" passed, 0 failed"), "{last}");
    assert_eq!(compared(&["--fault", "none"]).0, Some(2));
}

/// The number of the last planned case.
fn last_planned() -> String {
    (compare::cases::Plan::new(1).planned() - 1).to_string()
}
