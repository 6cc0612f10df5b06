//! The options of a run.

use shell::options::Form;
use std::hash::{BuildHasher, RandomState};

pub const USAGE: &str = "\
bursztok-compare [--seed N] [--cases N | --seconds N] [--case N]

Runs every call of the library against the second program: first the planned cases (every edge of a
key's counts, every pair of faults of every call and set, every header bit, every bit of a key
number, every length of a record, every spare bit and every bit of an entry in both forms, every
count of words, every step of the draw, masks that make the dropped digits cost their figure), then
random ones. At the end it tells how far 2^d times z2 dagger lay from z2 in each set, beside the
figure.

  --seed N     what all cases are made from (default: a fresh one, which is printed)
  --cases N    so many random cases after the planned ones (default 1000)
  --seconds N  random cases until so many seconds have passed
  --case N     only the case of this number

The last line is 'N passed, M failed', in compared calls; a number that a call never gave is a
failure, and so are a number that it can't give, a figure that no response reached, and a byte of a
key number that a call was never done with. Exit status: 0 all passed, 1 some failed, 2 bad usage.";

const FORM: Form = Form {
    name: "bursztok-compare",
    values: &["seed", "cases", "seconds", "case"],
    flags: &[],
    words: &[],
};

pub struct Options {
    pub seed: u64,
    pub cases: u64,
    pub seconds: Option<u64>,
    pub only: Option<u64>,
}

impl Options {
    pub fn parse(words: &[String]) -> Result<Options, String> {
        let given = shell::options::Options::parse(FORM, words)?;
        let (cases, seconds) = (given.number("cases")?, given.number("seconds")?);
        if cases.is_some() && seconds.is_some() {
            return Err(given.fault("--cases and --seconds do not go together"));
        }
        Ok(Options {
            seed: given.number("seed")?.unwrap_or_else(fresh_seed),
            cases: cases.unwrap_or(1000),
            seconds,
            only: given.number("case")?,
        })
    }

    /// How far the random cases go, in words.
    pub fn extent(&self) -> String {
        match self.seconds {
            Some(seconds) => format!("random ones until {seconds} s have passed"),
            None => format!("{} random ones", self.cases),
        }
    }
}

/// Another number in every run: the keys of the standard library's hash tables are drawn anew.
fn fresh_seed() -> u64 {
    RandomState::new().hash_one(0)
}

#[cfg(test)]
mod tests {
    use super::Options;

    fn parse(line: &str) -> Result<Options, String> {
        let words: Vec<String> = line.split_whitespace().map(str::to_string).collect();
        Options::parse(&words)
    }

    #[test]
    fn bad_usage_is_told() {
        let fault = |line: &str, said: &str| {
            let told = parse(line).err().unwrap_or_default();
            assert!(told.contains(said), "{told}");
        };
        fault("--sed", "'--sed' is no option");
        fault("--seed", "--seed wants a value");
        fault("--seed 1 --seed 1", "--seed is given twice");
        fault("--seconds 1 --cases 1", "do not go together");
        fault("7", "'7' is one word too many");
    }

    #[test]
    fn a_seed_is_taken_or_fresh() {
        assert_eq!(parse("--seed 7 --cases=5").unwrap().seed, 7);
        assert_eq!(parse("--seed 7 --cases=5").unwrap().cases, 5);
        assert_ne!(parse("").unwrap().seed, parse("").unwrap().seed);
    }
}
