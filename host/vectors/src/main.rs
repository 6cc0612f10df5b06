//! Writes the file of vectors, or replays one. Its format stands in the library's comment.

use shell::console::arguments;
use shell::files::write_file;
use shell::options::{Form, Options};
use shell::{say, warn};
use std::path::Path;
use std::process::ExitCode;
use vectors::Fault;

const USAGE: &str = "\
bursztok-vectors FILE [SEED]      writes the file of vectors that SEED makes (default 1)
bursztok-vectors --replay FILE    replays a file against the second program, also one of before the
                                  key number; its answers of 13 at 20 are counted apart

The file's format is in the comment of host/vectors/src/lib.rs.
Exit status: 0 done, 1 the replay found a difference, 2 bad usage or a bad file.";

const FORM: Form = Form {
    name: "bursztok-vectors",
    values: &["replay"],
    flags: &[],
    words: &["WORD.."],
};

fn main() -> ExitCode {
    let words = arguments();
    if words.iter().any(|word| word == "--help" || word == "-h") {
        say!("{USAGE}");
        return ExitCode::SUCCESS;
    }
    let options = match Options::parse(FORM, &words) {
        Ok(options) => options,
        Err(message) => return bad(&message),
    };
    match (options.given("replay"), options.words()) {
        (Some(path), []) => replay(path),
        (None, [path]) => write(path, 1),
        (None, [path, seed]) => match seed.parse() {
            Ok(seed) => write(path, seed),
            Err(_) => bad(&options.fault(format!("the seed '{seed}' is not a whole number"))),
        },
        _ => bad(USAGE),
    }
}

fn write(path: &str, seed: u64) -> ExitCode {
    let file = vectors::vectors(seed);
    match write_file(Path::new(path), &file) {
        Ok(()) => {
            say!("{path}: {} bytes, seed {seed}", file.len());
            ExitCode::SUCCESS
        }
        Err(message) => bad(&message),
    }
}

fn replay(path: &str) -> ExitCode {
    let file = match std::fs::read(path) {
        Ok(file) => file,
        Err(error) => return bad(&format!("{path}: {error}")),
    };
    match vectors::replay(&file) {
        Ok(replayed) => {
            for ((call, number), count) in &replayed.counts {
                say!("call {call:>2}, number {number:>2}: {count}");
            }
            if let Some(count) = replayed.taken_back {
                say!("13 at 20, no longer given: {count}");
            }
            say!("{} passed, 0 failed", replayed.calls());
            ExitCode::SUCCESS
        }
        Err(Fault::Differs(what)) => {
            say!("{path}: {what}");
            ExitCode::from(1)
        }
        Err(Fault::Malformed(what)) => bad(&format!("{path}: {what}")),
    }
}

fn bad(message: &str) -> ExitCode {
    warn!("{message}");
    ExitCode::from(2)
}
