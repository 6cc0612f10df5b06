//! The subcommands, with what each takes.

use crate::answer::Done;
use crate::arguments::Arguments;
use crate::failure::Failure;
use crate::{checker, completion, demo, help, inspect, records, signer};
use shell::options::Form;
use std::process::ExitCode;

pub struct Subcommand {
    pub name: &'static str,
    pub values: &'static [&'static str],
    pub flags: &'static [&'static str],
    pub words: &'static [&'static str],
    pub help: &'static str,
    pub run: Run,
}

pub enum Run {
    /// Gives one answer, as text or as JSON.
    Answers(fn(&Arguments) -> Result<Done, Failure>),
    /// Says all that there is to say itself.
    Tells(fn(&Arguments) -> Result<ExitCode, Failure>),
}

impl Subcommand {
    pub fn form(&self) -> Form<'static> {
        Form {
            name: self.name,
            values: self.values,
            flags: self.flags,
            words: self.words,
        }
    }
}

/// A subcommand with one answer.
const fn answers(
    name: &'static str,
    values: &'static [&'static str],
    help: &'static str,
    run: fn(&Arguments) -> Result<Done, Failure>,
) -> Subcommand {
    Subcommand {
        name,
        values,
        flags: &["json"],
        words: &[],
        help,
        run: Run::Answers(run),
    }
}

/// One that writes a record, in the form that is asked for.
const fn writes(subcommand: Subcommand) -> Subcommand {
    Subcommand {
        flags: &["packed", "json"],
        ..subcommand
    }
}

pub const SUBCOMMANDS: &[Subcommand] = &[
    Subcommand {
        name: "demo",
        values: &["set", "seed", "sheets", "folder"],
        flags: &["packed"],
        words: &[],
        help: help::DEMO,
        run: Run::Tells(demo::demo),
    },
    answers(
        "key-test",
        &["set", "folder", "f", "g", "a"],
        help::KEY_TEST,
        signer::key_test,
    ),
    answers(
        "commit",
        &["set", "folder", "a", "y1", "y2", "out", "rests", "plot"],
        help::COMMIT,
        signer::commit,
    ),
    writes(answers(
        "sign",
        &[
            "set",
            "key",
            "folder",
            "f",
            "g",
            "a",
            "y1",
            "y2",
            "list",
            "sign",
            "thresholds",
            "words",
            "record",
        ],
        help::SIGN,
        signer::sign,
    )),
    answers(
        "check",
        &["a", "record", "hash", "sheet", "rebuilt", "hashed"],
        help::CHECK,
        checker::check,
    ),
    answers(
        "rebuild",
        &["a", "record", "out"],
        help::REBUILD,
        checker::rebuild_alone,
    ),
    writes(answers(
        "write",
        &["set", "key", "folder", "z1", "z2", "list", "record"],
        help::WRITE,
        records::write,
    )),
    answers("read", &["record", "folder"], help::READ, records::read),
    answers("pack", &["record", "out"], help::PACK, records::pack),
    answers("unpack", &["record", "out"], help::UNPACK, records::unpack),
    Subcommand {
        name: "inspect",
        values: &["record"],
        flags: &["json"],
        words: &["FILE.."],
        help: help::INSPECT,
        run: Run::Tells(inspect::inspect),
    },
    Subcommand {
        name: "completion",
        values: &[],
        flags: &[],
        words: &["SHELL"],
        help: help::COMPLETION,
        run: Run::Tells(completion::completion),
    },
];
