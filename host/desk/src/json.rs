//! JSON, as far as an answer needs it.

#[derive(Clone, Debug, PartialEq, Eq)]
pub enum Value {
    Null,
    Number(u64),
    Text(String),
}

/// An object on one line.
pub fn object(fields: &[(&str, Value)]) -> String {
    let fields: Vec<String> = fields
        .iter()
        .map(|(name, value)| format!("{}:{}", quoted(name), written(value)))
        .collect();
    format!("{{{}}}", fields.join(","))
}

fn written(value: &Value) -> String {
    match value {
        Value::Null => "null".to_string(),
        Value::Number(number) => number.to_string(),
        Value::Text(text) => quoted(text),
    }
}

fn quoted(text: &str) -> String {
    let mut quoted = String::from("\"");
    for character in text.chars() {
        match character {
            '"' | '\\' => quoted.extend(['\\', character]),
            '\n' => quoted.push_str("\\n"),
            _ if character < ' ' => quoted.push_str(&format!("\\u{:04x}", character as u32)),
            _ => quoted.push(character),
        }
    }
    quoted.push('"');
    quoted
}

#[cfg(test)]
mod tests {
    use super::{object, Value};

    #[test]
    fn texts_are_quoted() {
        let text = Value::Text("a \"b\"\\\n\u{1}ż".to_string());
        let line = object(&[("one", text), ("two", Value::Number(7)), ("", Value::Null)]);
        assert_eq!(
            line,
            "{\"one\":\"a \\\"b\\\"\\\\\\n\\u0001ż\",\"two\":7,\"\":null}"
        );
    }
}
