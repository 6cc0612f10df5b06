//! Options of a program or a subcommand: `--name value` or `--name=value`, `--flag`, and words
//! that are no options. After `--` every word is one of these.

use crate::console::shown;
use std::collections::{BTreeMap, BTreeSet};

/// What a program or a subcommand takes.
#[derive(Clone, Copy, Debug)]
pub struct Form<'a> {
    /// As messages name it.
    pub name: &'a str,
    /// The options with a value.
    pub values: &'a [&'a str],
    /// The options without one.
    pub flags: &'a [&'a str],
    /// The words beside options, as the usage names them. A last name that ends in ".." stands for
    /// any count.
    pub words: &'a [&'a str],
}

/// What was given.
#[derive(Debug)]
pub struct Options {
    name: String,
    values: BTreeMap<String, String>,
    flags: BTreeSet<String>,
    words: Vec<String>,
}

impl Options {
    pub fn parse(form: Form, words: &[String]) -> Result<Options, String> {
        let mut options = Options {
            name: form.name.to_string(),
            values: BTreeMap::new(),
            flags: BTreeSet::new(),
            words: Vec::new(),
        };
        let mut words = words.iter();
        while let Some(word) = words.next() {
            if word == "--" {
                options.words.extend(words.by_ref().cloned());
            } else if word == "-" || !word.starts_with('-') {
                options.words.push(word.clone());
            } else {
                options.take(form, word, &mut words)?;
            }
        }
        match options.count_fault(form.words) {
            Some(fault) => Err(options.fault(fault)),
            None => Ok(options),
        }
    }

    fn take<'w>(
        &mut self,
        form: Form,
        word: &str,
        words: &mut impl Iterator<Item = &'w String>,
    ) -> Result<(), String> {
        let (name, given) = match word.split_once('=') {
            Some((name, value)) => (name, Some(value.to_string())),
            None => (word, None),
        };
        let name = name.strip_prefix("--").unwrap_or_default();
        let new = if form.flags.contains(&name) && given.is_none() {
            self.flags.insert(name.to_string())
        } else if form.values.contains(&name) {
            let value = given
                .or_else(|| words.next().cloned())
                .filter(|value| !value.is_empty())
                .ok_or_else(|| self.fault(format!("--{name} wants a value")))?;
            self.values.insert(name.to_string(), value).is_none()
        } else {
            return Err(self.fault(format!("'{}' is no option", shown(word))));
        };
        if new {
            Ok(())
        } else {
            Err(self.fault(format!("--{name} is given twice")))
        }
    }

    /// What is wrong with the count of words.
    fn count_fault(&self, names: &[&str]) -> Option<String> {
        let any = names.last().is_some_and(|name| name.ends_with(".."));
        let least = names.len() - usize::from(any);
        if let Some(missing) = names[..least].get(self.words.len()) {
            return Some(format!("{missing} is missing"));
        }
        match self.words.get(least) {
            Some(extra) if !any => Some(format!("'{}' is one word too many", shown(extra))),
            _ => None,
        }
    }

    /// Something about these options, under the program's name.
    pub fn fault(&self, what: impl std::fmt::Display) -> String {
        format!("{}: {what}; try --help", self.name)
    }

    pub fn given(&self, name: &str) -> Option<&str> {
        self.values.get(name).map(String::as_str)
    }

    pub fn has(&self, flag: &str) -> bool {
        self.flags.contains(flag)
    }

    pub fn words(&self) -> &[String] {
        &self.words
    }

    pub fn required(&self, name: &str) -> Result<&str, String> {
        self.given(name)
            .ok_or_else(|| self.fault(format!("--{name} is missing")))
    }

    /// A whole number, where the option is given.
    pub fn number(&self, name: &str) -> Result<Option<u64>, String> {
        let Some(word) = self.given(name) else {
            return Ok(None);
        };
        word.parse().map(Some).map_err(|_| {
            let word = shown(word);
            self.fault(format!("--{name} is '{word}', expected a whole number"))
        })
    }
}

#[cfg(test)]
mod tests {
    use super::{Form, Options};

    const FORM: Form = Form {
        name: "test",
        values: &["set", "out"],
        flags: &["json"],
        words: &["SEED", "FILE.."],
    };

    fn parse(line: &str) -> Result<Options, String> {
        let words: Vec<String> = line.split(' ').map(str::to_string).collect();
        Options::parse(FORM, &words)
    }

    #[test]
    fn options_and_words_in_any_order() {
        let options = parse("--set=1 7 --json one --out - -- --two").unwrap();
        assert_eq!(options.given("set"), Some("1"));
        assert_eq!(options.given("out"), Some("-"));
        assert!(options.has("json"));
        assert_eq!(options.words(), ["7", "one", "--two"]);
        assert_eq!(options.number("set"), Ok(Some(1)));
        assert_eq!(parse("7 --out=a=b").unwrap().given("out"), Some("a=b"));
    }

    #[test]
    fn bad_usage_is_told() {
        let fault = |line: &str, said: &str| {
            let told = parse(line).unwrap_err();
            assert_eq!(told, format!("test: {said}; try --help"));
        };
        fault("7 --sed 1", "'--sed' is no option");
        fault("7 -s", "'-s' is no option");
        fault("7 --json=yes", "'--json=yes' is no option");
        fault("7 --set", "--set wants a value");
        fault("7 --set=", "--set wants a value");
        fault("7 --set 1 --set=1", "--set is given twice");
        fault("7 --json --json", "--json is given twice");
        fault("--json", "SEED is missing");
        let options = parse("7 --set one").unwrap();
        let said = "test: --set is 'one', expected a whole number; try --help";
        assert_eq!(options.number("set").unwrap_err(), said);
        assert!(options.required("out").is_err());
        let exact = Form {
            words: &["SEED"],
            ..FORM
        };
        let words = ["7".to_string(), "8".to_string()];
        let told = Options::parse(exact, &words).unwrap_err();
        assert_eq!(told, "test: '8' is one word too many; try --help");
    }
}
