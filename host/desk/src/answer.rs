//! What a subcommand answers, as text or as one line of JSON.

use crate::failure::{form_value, key_value, Failure};
use crate::json::{object, Value};
use second::Form;

/// A subcommand that is done.
#[derive(Debug, Default, PartialEq, Eq)]
pub struct Done {
    /// The call whose answer it is.
    pub call: &'static str,
    pub set: u32,
    /// The key number of the record that was read or written.
    pub key: Option<u32>,
    /// The form of the record that was read or written; of two, of the one that was written.
    pub form: Option<Form>,
    /// The words that the draw took.
    pub words: Option<u64>,
    /// What there is to say, in whole sentences.
    pub said: String,
}

/// The fields of an answer: number and place are null where no call gave them.
pub fn json_of(outcome: &Result<Done, Failure>) -> String {
    let mut fields = vec![("status", Value::Number(0))];
    match outcome {
        Ok(done) => {
            fields.extend([
                ("call", Value::Text(done.call.to_string())),
                ("number", Value::Number(0)),
                ("place", Value::Number(0)),
                ("meaning", Value::Text("done".to_string())),
                ("words", done.words.map_or(Value::Null, Value::Number)),
                ("set", Value::Number(done.set.into())),
                ("key", key_value(done.key)),
                ("form", form_value(done.form)),
                ("cause", Value::Text(String::new())),
            ]);
        }
        Err(failure) => {
            fields[0].1 = Value::Number(failure.status().into());
            fields.extend(failure.fields());
        }
    }
    object(&fields)
}
