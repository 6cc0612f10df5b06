//! How a run fails, and the exit status that says so.

use crate::json::Value;
use bursztok::Refusal;
use second::Form;
use std::fmt;
use std::process::ExitCode;

#[derive(Debug, PartialEq, Eq)]
pub enum Failure {
    /// A call refused: exit status 1.
    Refused(Refused),
    /// What was given does not belong together, though no call refused: exit status 1.
    Differs(String),
    /// The library answered what it must not: exit status 1.
    Fault(String),
    /// Bad usage or a bad file: exit status 2.
    Usage(String),
}

#[derive(Debug, PartialEq, Eq)]
pub struct Refused {
    pub call: &'static str,
    pub refusal: Refusal,
    /// The set that was asked for, or that the record states; 0 where none is known.
    pub set: u32,
    /// The key number of the record, where one was read.
    pub key: Option<u32>,
    /// The form whose letters open the record, where there is one.
    pub form: Option<Form>,
    /// The words that the draw took, where the call has a draw.
    pub words: Option<u64>,
    /// The files at fault, and how, as far as the call tells it.
    pub causes: Vec<String>,
}

impl Failure {
    pub fn usage(message: impl Into<String>) -> Failure {
        Failure::Usage(message.into())
    }

    pub fn refused(call: &'static str, refusal: Refusal) -> Failure {
        Failure::Refused(Refused {
            call,
            refusal,
            set: 0,
            key: None,
            form: None,
            words: None,
            causes: Vec::new(),
        })
    }

    /// The same with what is found out about the refusal, if it is one.
    pub fn with(mut self, explain: impl FnOnce(&mut Refused)) -> Failure {
        if let Failure::Refused(refused) = &mut self {
            explain(refused);
        }
        self
    }

    pub fn status(&self) -> u8 {
        match self {
            Failure::Refused(_) | Failure::Differs(_) | Failure::Fault(_) => 1,
            Failure::Usage(_) => 2,
        }
    }

    pub fn exit_code(&self) -> ExitCode {
        ExitCode::from(self.status())
    }

    /// The fields of a JSON answer.
    pub fn fields(&self) -> Vec<(&'static str, Value)> {
        let text = |text: &str| Value::Text(text.to_string());
        let number = |number: u32| Value::Number(number.into());
        match self {
            Failure::Refused(refused) => vec![
                ("call", text(refused.call)),
                ("number", number(refused.refusal.number())),
                ("place", number(refused.refusal.place())),
                ("meaning", text(refused.refusal.meaning())),
                ("words", refused.words.map_or(Value::Null, Value::Number)),
                ("set", number(refused.set)),
                ("key", key_value(refused.key)),
                ("form", form_value(refused.form)),
                ("cause", Value::Text(refused.causes.join("; "))),
            ],
            Failure::Differs(message) | Failure::Fault(message) | Failure::Usage(message) => vec![
                ("call", Value::Null),
                ("number", Value::Null),
                ("place", Value::Null),
                ("meaning", Value::Null),
                ("words", Value::Null),
                ("set", Value::Null),
                ("key", Value::Null),
                ("form", Value::Null),
                ("cause", text(message)),
            ],
        }
    }
}

/// The key number of a record in a JSON answer: 0 where the record states none, null where none was read
/// or written.
pub fn key_value(key: Option<u32>) -> Value {
    key.map_or(Value::Null, |key| Value::Number(key.into()))
}

/// The form of a record in a JSON answer.
pub fn form_value(form: Option<Form>) -> Value {
    form.map_or(Value::Null, |form| Value::Text(form.name().to_string()))
}

impl From<String> for Failure {
    fn from(message: String) -> Failure {
        Failure::Usage(message)
    }
}

impl fmt::Display for Failure {
    fn fmt(&self, out: &mut fmt::Formatter<'_>) -> fmt::Result {
        match self {
            Failure::Refused(refused) => refused.fmt(out),
            Failure::Fault(message) => write!(out, "a fault of the library: {message}"),
            Failure::Differs(message) | Failure::Usage(message) => out.write_str(message),
        }
    }
}

/// The causes first, since they name the files; then the call's own words.
impl fmt::Display for Refused {
    fn fmt(&self, out: &mut fmt::Formatter<'_>) -> fmt::Result {
        for cause in &self.causes {
            write!(out, "{cause}\n  ")?;
        }
        write!(out, "{} refused with {}", self.call, self.refusal)?;
        match self.words {
            Some(words) => write!(out, " ({words} words taken)"),
            None => Ok(()),
        }
    }
}

/// Names the call that refused.
pub trait Named {
    fn named(self, call: &'static str) -> Result<(), Failure>;
}

impl Named for Result<(), Refusal> {
    fn named(self, call: &'static str) -> Result<(), Failure> {
        self.map_err(|refusal| Failure::refused(call, refusal))
    }
}
