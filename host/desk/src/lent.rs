//! The vectors that a run lends to the calls, with the files that they come from.

use crate::arguments::Arguments;
use crate::failure::Failure;
use second::Form;
use shell::files::is_stream;
use shell::numbers::{read_numbers, Number};
use std::path::Path;

/// A vector as the causes of a refusal need it.
#[derive(Clone, Debug, PartialEq, Eq)]
pub struct Vector {
    /// As the calls' descriptions name it: f, g, a, y1, y2, list, hashed, thresholds, words, z1, z2.
    pub name: &'static str,
    /// Where it comes from.
    pub source: String,
    pub numbers: Vec<i128>,
    /// The count that the calls ask for, where it is the same for all sets.
    pub expected: Option<usize>,
}

#[derive(Default)]
pub struct Lent {
    pub vectors: Vec<Vector>,
    /// The key number of the record that some of them come from, where it was read.
    pub key: Option<u32>,
    /// The form of that record.
    pub form: Option<Form>,
}

impl Lent {
    /// The numbers of the file that an option names. Count and range are for the library to judge.
    pub fn read<T>(
        &mut self,
        arguments: &Arguments,
        name: &'static str,
        expected: Option<usize>,
    ) -> Result<Vec<T>, Failure>
    where
        T: Number + Copy + Into<i128>,
    {
        let path = arguments.input(name)?;
        let numbers: Vec<T> = read_numbers(&path)?;
        self.add(name, source_of(&path), &numbers, expected);
        Ok(numbers)
    }

    pub fn add<T: Copy + Into<i128>>(
        &mut self,
        name: &'static str,
        source: String,
        numbers: &[T],
        expected: Option<usize>,
    ) {
        self.vectors.push(Vector {
            name,
            source,
            numbers: numbers.iter().map(|&number| number.into()).collect(),
            expected,
        });
    }
}

/// A file as messages name it.
pub fn source_of(path: &Path) -> String {
    if is_stream(path) {
        "standard input".to_string()
    } else {
        path.display().to_string()
    }
}
