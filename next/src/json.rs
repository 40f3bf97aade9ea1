//! Answers as JSON: values, and how they are written. Nothing here reads JSON.

use std::fmt;

/// A JSON value. Fields are written in the order in which they are given.
#[derive(Clone, Debug, PartialEq, Eq)]
pub enum Value {
    Null,
    Bool(bool),
    Number(usize),
    Text(String),
    List(Vec<Value>),
    Object(Fields),
}

pub type Fields = Vec<(&'static str, Value)>;

impl Value {
    /// A list of what each item gives.
    pub fn list<T, V: Into<Value>>(items: impl IntoIterator<Item = T>, of: impl Fn(T) -> V) -> Value {
        Value::List(items.into_iter().map(|item| of(item).into()).collect())
    }
}

impl From<bool> for Value {
    fn from(value: bool) -> Value {
        Value::Bool(value)
    }
}

impl From<usize> for Value {
    fn from(value: usize) -> Value {
        Value::Number(value)
    }
}

impl From<u8> for Value {
    fn from(value: u8) -> Value {
        Value::Number(usize::from(value))
    }
}

impl From<&str> for Value {
    fn from(value: &str) -> Value {
        Value::Text(value.to_string())
    }
}

impl From<String> for Value {
    fn from(value: String) -> Value {
        Value::Text(value)
    }
}

impl From<Fields> for Value {
    fn from(value: Fields) -> Value {
        Value::Object(value)
    }
}

impl<T: Into<Value>> From<Option<T>> for Value {
    fn from(value: Option<T>) -> Value {
        value.map_or(Value::Null, Into::into)
    }
}

impl fmt::Display for Value {
    fn fmt(&self, out: &mut fmt::Formatter) -> fmt::Result {
        match self {
            Value::Null => out.write_str("null"),
            Value::Bool(value) => write!(out, "{}", value),
            Value::Number(value) => write!(out, "{}", value),
            Value::Text(value) => text(out, value),
            Value::List(values) => parted(out, '[', values, ']', |out, value| write!(out, "{}", value)),
            Value::Object(fields) => parted(out, '{', fields, '}', |out, (key, value)| {
                text(out, key)?;
                write!(out, ": {}", value)
            }),
        }
    }
}

fn parted<T>(
    out: &mut fmt::Formatter,
    open: char,
    items: &[T],
    close: char,
    written: impl Fn(&mut fmt::Formatter, &T) -> fmt::Result,
) -> fmt::Result {
    write!(out, "{}", open)?;
    for (place, item) in items.iter().enumerate() {
        if place > 0 {
            out.write_str(", ")?;
        }
        written(out, item)?;
    }
    write!(out, "{}", close)
}

/// A string in quotes: what JSON asks to be escaped is, and so is what a terminal would act on.
fn text(out: &mut fmt::Formatter, value: &str) -> fmt::Result {
    out.write_str("\"")?;
    for character in value.chars() {
        match character {
            '"' => out.write_str("\\\"")?,
            '\\' => out.write_str("\\\\")?,
            '\n' => out.write_str("\\n")?,
            '\t' => out.write_str("\\t")?,
            '\r' => out.write_str("\\r")?,
            other if other.is_control() => write!(out, "\\u{:04x}", u32::from(other))?,
            other => write!(out, "{}", other)?,
        }
    }
    out.write_str("\"")
}

#[cfg(test)]
mod tests {
    use super::Value;

    #[test]
    fn values_are_written_as_json() {
        let value = Value::Object(vec![
            ("run", Value::list([5u8, 3, 7], |byte| byte)),
            ("solver", Value::from(None::<&str>)),
            ("empty", Value::List(Vec::new())),
            ("found", Value::from(true)),
            ("none", Value::Object(Vec::new())),
        ]);
        let expected = "{\"run\": [5, 3, 7], \"solver\": null, \"empty\": [], \"found\": true, \"none\": {}}";
        assert_eq!(value.to_string(), expected);
    }

    #[test]
    fn strings_are_escaped() {
        let value = Value::from("a\"b\\c\nd\te\rf\u{1b}g\u{7f}\u{9b}é\u{0}");
        assert_eq!(value.to_string(), "\"a\\\"b\\\\c\\nd\\te\\rf\\u001bg\\u007f\\u009bé\\u0000\"");
    }
}
