//! Runs every call of the library against the second program, and compares all that they leave
//! behind, byte for byte.

use shell::console::arguments;
use std::process::ExitCode;

fn main() -> ExitCode {
    compare::program::main(&arguments())
}
