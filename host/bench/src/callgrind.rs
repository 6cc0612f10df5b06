//! Instructions counted by callgrind, inside one function only, so that a program's start and its
//! environment are not in the count.

use crate::work::MEASURED;
use second::Set;
use std::path::Path;
use std::process::Command;

pub type Count = u64;

/// Instructions of one call on a sheet of the set, inside the library's exported function.
pub fn call(set: Set, name: &str) -> Result<Count, String> {
    let exported = MEASURED.iter().find(|(_, known, _)| *known == name);
    let exported = exported.ok_or(format!("'{name}' is no call"))?.2;
    inside(set, name, exported)
}

/// The same inside a function that the call reaches, 0 where it never enters it.
pub fn inside(set: Set, name: &str, symbol: &str) -> Result<Count, String> {
    const TIMES: u64 = 4;
    let this = std::env::current_exe().map_err(|error| error.to_string())?;
    let mut command = collecting(symbol);
    command
        .arg(this)
        .args(["--run", name, "--times", &TIMES.to_string()])
        .args(["--set", &set.number().to_string()]);
    Ok(collected(command)? / TIMES)
}

/// Instructions of a program's `main`, by the number of its rounds.
pub fn program(path: &Path, rounds: u64) -> Result<Count, String> {
    let mut command = collecting("main");
    command.arg(path);
    match collected(command)? / rounds {
        0 => Err(format!("{} has no main that was entered", path.display())),
        count => Ok(count),
    }
}

fn collecting(symbol: &str) -> Command {
    let mut command = Command::new("valgrind");
    command
        .args(["--tool=callgrind", "--callgrind-out-file=/dev/null"])
        .arg(format!("--toggle-collect={symbol}"));
    command
}

fn collected(mut command: Command) -> Result<Count, String> {
    let output = command
        .output()
        .map_err(|error| format!("valgrind cannot be run ({error}); no instructions counted"))?;
    let said = String::from_utf8_lossy(&output.stderr);
    let collected = said
        .lines()
        .filter_map(|line| line.split("Collected :").nth(1))
        .next_back()
        .and_then(|count| count.trim().parse::<u64>().ok());
    match collected {
        Some(count) if output.status.success() => Ok(count),
        _ => Err(format!("valgrind failed:\n{said}")),
    }
}
