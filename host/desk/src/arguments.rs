//! The options of a subcommand, and the files that they name.

use crate::failure::Failure;
use bursztok::KEY_NOT_STATED;
use second::{Form, Set};
use shell::console::shown;
use shell::files::{is_stream, same_file};
use shell::options::Options;
use std::cell::{Cell, RefCell};
use std::path::{Path, PathBuf};

pub struct Arguments {
    options: Options,
    subcommand: &'static str,
    /// Whether some file is standard input already, or standard output.
    streams: (Cell<bool>, Cell<bool>),
    /// The files for output so far, with the options that name them.
    outputs: RefCell<Vec<(&'static str, PathBuf)>>,
}

impl Arguments {
    pub fn new(subcommand: &'static str, options: Options) -> Arguments {
        Arguments {
            options,
            subcommand,
            streams: (Cell::new(false), Cell::new(false)),
            outputs: RefCell::default(),
        }
    }

    pub fn given(&self, name: &str) -> Option<&str> {
        self.options.given(name)
    }

    pub fn has(&self, flag: &str) -> bool {
        self.options.has(flag)
    }

    /// The form of the record that is to be written.
    pub fn form(&self) -> Form {
        match self.has("packed") {
            true => Form::Packed,
            false => Form::Plain,
        }
    }

    pub fn words(&self) -> &[String] {
        self.options.words()
    }

    pub fn required(&self, name: &str) -> Result<&str, Failure> {
        Ok(self.options.required(name)?)
    }

    pub fn fault(&self, what: impl std::fmt::Display) -> Failure {
        Failure::Usage(self.options.fault(what))
    }

    /// The file of a vector: --name, else NAME.txt in --folder.
    fn file(&self, name: &str) -> Result<PathBuf, Failure> {
        match (self.given(name), self.given("folder")) {
            (None, Some(folder)) => Ok(PathBuf::from(folder).join(name).with_extension("txt")),
            _ => Ok(PathBuf::from(self.required(name)?)),
        }
    }

    /// A file to read. Standard input can be one of them only.
    pub fn input(&self, name: &str) -> Result<PathBuf, Failure> {
        let file = self.file(name)?;
        if is_stream(&file) && self.streams.0.replace(true) {
            return Err(self.fault("'-' is given for two files, standard input is only one"));
        }
        Ok(file)
    }

    /// The file that an option names for output: none of the files that these name for input, and
    /// none that was named for output before.
    pub fn output(&self, name: &'static str, inputs: &[&str]) -> Result<PathBuf, Failure> {
        let out = PathBuf::from(self.required(name)?);
        if is_stream(&out) {
            if self.has("json") {
                return Err(self.fault("--json and an output to '-' do not go together"));
            }
            if self.streams.1.replace(true) {
                return Err(self.fault("'-' is given for two files, standard output is only one"));
            }
            return Ok(out);
        }
        for input in inputs {
            if self.file(input).is_ok_and(|file| same_file(&file, &out)) {
                return Err(self.taken(name, input, &out));
            }
        }
        let mut outputs = self.outputs.borrow_mut();
        if let Some((other, _)) = outputs.iter().find(|(_, file)| same_place(file, &out)) {
            return Err(self.taken(name, &format!("--{other}"), &out));
        }
        outputs.push((name, out.clone()));
        Ok(out)
    }

    /// The same where the option is given.
    pub fn output_if_given(
        &self,
        name: &'static str,
        inputs: &[&str],
    ) -> Result<Option<PathBuf>, Failure> {
        let given = self.given(name);
        given.map(|_| self.output(name, inputs)).transpose()
    }

    fn taken(&self, name: &str, other: &str, file: &Path) -> Failure {
        let (subcommand, file) = (self.subcommand, file.display());
        Failure::usage(format!(
            "{subcommand}: --{name} names the file of {other}, {file}"
        ))
    }

    /// Whether standard output holds a file, so that what is said goes to standard error.
    pub fn output_is_stream(&self) -> bool {
        self.streams.1.get()
    }

    /// A whole number, or `default` where the option is not given.
    pub fn number_or(&self, name: &str, default: u64) -> Result<u64, Failure> {
        Ok(self.options.number(name)?.unwrap_or(default))
    }

    /// The set number as the calls take it: any number that fits, so that the library answers.
    pub fn set(&self) -> Result<u32, Failure> {
        let word = self.required("set")?;
        word.parse().map_err(|_| {
            let (word, last) = (shown(word), Set::ALL.len());
            self.fault(format!(
                "--set is '{word}', expected a set number (1 to {last}, or 0 for set 4)"
            ))
        })
    }

    /// The key number of the record that is to be written; not stated where the option is not given.
    pub fn key(&self) -> Result<u32, Failure> {
        let Some(word) = self.given("key") else {
            return Ok(KEY_NOT_STATED);
        };
        word.parse().map_err(|_| {
            let (word, last) = (shown(word), u32::MAX);
            self.fault(format!(
                "--key is '{word}', expected a key number (1 to {last}, or 0 for none)"
            ))
        })
    }
}

/// Whether two paths lead to one file, also where it is not there yet.
fn same_place(one: &Path, other: &Path) -> bool {
    let folder = |path: &Path| Path::new(".").join(path.parent().unwrap_or(path));
    let beside = || same_file(&folder(one), &folder(other));
    same_file(one, other) || (one.file_name() == other.file_name() && beside())
}
