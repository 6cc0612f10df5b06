//! The desk's tool.

mod answer;
mod arguments;
mod causes;
mod checker;
mod completion;
mod demo;
mod failure;
mod hash;
mod header;
mod help;
mod histogram;
mod inspect;
mod json;
mod lent;
mod record;
mod records;
mod signer;
mod subcommands;

use answer::json_of;
use arguments::Arguments;
use failure::Failure;
use shell::console::{self, shown};
use shell::options::Options;
use shell::{say, warn};
use std::process::ExitCode;
use subcommands::{Run, Subcommand, SUBCOMMANDS};

fn main() -> ExitCode {
    let words = console::arguments();
    let json = words.iter().any(|word| word == "--json");
    run(&words).unwrap_or_else(|failure| {
        if json {
            let code = failure.exit_code();
            say!("{}", json_of(&Err(failure)));
            return code;
        }
        tell(failure)
    })
}

fn tell(failure: Failure) -> ExitCode {
    warn!("bursztok: {failure}");
    failure.exit_code()
}

fn run(words: &[String]) -> Result<ExitCode, Failure> {
    let Some((name, rest)) = words.split_first() else {
        return Err(Failure::usage("a subcommand is missing; try --help"));
    };
    match (name.as_str(), rest) {
        ("--version" | "-V" | "version", _) => {
            say!("bursztok {}", env!("CARGO_PKG_VERSION"));
            return Ok(ExitCode::SUCCESS);
        }
        ("--help" | "-h" | "help", []) => {
            say!("{}", help::OVERVIEW);
            return Ok(ExitCode::SUCCESS);
        }
        ("--help" | "-h" | "help", [about, ..]) => {
            say!("{}", found(about)?.help);
            return Ok(ExitCode::SUCCESS);
        }
        _ => {}
    }
    let subcommand = found(name)?;
    if rest.iter().any(|word| word == "--help" || word == "-h") {
        say!("{}", subcommand.help);
        return Ok(ExitCode::SUCCESS);
    }
    let options = Options::parse(subcommand.form(), rest)?;
    let arguments = Arguments::new(subcommand.name, options);
    match subcommand.run {
        Run::Tells(run) => run(&arguments),
        Run::Answers(run) => Ok(answer(&arguments, run(&arguments))),
    }
}

fn found(name: &str) -> Result<&'static Subcommand, Failure> {
    let subcommand = SUBCOMMANDS
        .iter()
        .find(|subcommand| subcommand.name == name);
    subcommand
        .ok_or_else(|| Failure::usage(format!("'{}' is no subcommand; try --help", shown(name))))
}

/// Says what a subcommand answers, and ends with its status.
fn answer(arguments: &Arguments, outcome: Result<answer::Done, Failure>) -> ExitCode {
    if arguments.has("json") {
        say!("{}", json_of(&outcome));
        return outcome.map_or_else(|failure| failure.exit_code(), |_| ExitCode::SUCCESS);
    }
    match outcome {
        Ok(done) if arguments.output_is_stream() => warn!("{}", done.said),
        Ok(done) => say!("{}", done.said),
        Err(failure) => return tell(failure),
    }
    ExitCode::SUCCESS
}
