//! JSON, written.
use std::fmt::Write;

/// A value, as JSON has them. Numbers are whole; all that the library answers are exact in a double.
#[derive(Clone, Debug, PartialEq, Eq)]
pub enum Json {
    /// Nothing.
    Null,
    /// Yes or no.
    Bool(bool),
    /// A whole number.
    Number(i64),
    /// A text.
    Text(String),
    /// A list of values.
    List(Vec<Json>),
    /// Values by their keys, in order.
    Object(Vec<(&'static str, Json)>),
}

impl Json {
    /// Returns the JSON text, on one line.
    ///
    /// ```
    /// use desk::json::Json;
    ///
    /// let object = Json::Object(vec![("at", Json::from([3, -2])), ("name", Json::from("a\"b"))]);
    /// assert_eq!(object.text(), r#"{"at":[3,-2],"name":"a\"b"}"#);
    /// ```
    #[must_use]
    pub fn text(&self) -> String {
        let mut text = String::new();
        self.write(&mut text);
        text
    }

    fn write(&self, to: &mut String) {
        match self {
            Json::Null => to.push_str("null"),
            Json::Bool(is) => to.push_str(if *is { "true" } else { "false" }),
            Json::Number(number) => to.push_str(&number.to_string()),
            Json::Text(text) => write_text(text, to),
            Json::List(values) => {
                let write = |value: &Json, to: &mut String| value.write(to);
                separated(to, ['[', ']'], values, write);
            }
            Json::Object(values) => separated(to, ['{', '}'], values, |(key, value), to| {
                write_text(key, to);
                to.push(':');
                value.write(to);
            }),
        }
    }
}

/// Writes values with commas between them and brackets around.
fn separated<T>(
    to: &mut String,
    [open, close]: [char; 2],
    values: &[T],
    write: impl Fn(&T, &mut String),
) {
    to.push(open);
    for (position, value) in values.iter().enumerate() {
        if position > 0 {
            to.push(',');
        }
        write(value, to);
    }
    to.push(close);
}

fn write_text(text: &str, to: &mut String) {
    to.push('"');
    for c in text.chars() {
        match c {
            '"' => to.push_str("\\\""),
            '\\' => to.push_str("\\\\"),
            // Writing to a string cannot fail.
            c if c.is_control() => drop(write!(to, "\\u{:04x}", u32::from(c))),
            c => to.push(c),
        }
    }
    to.push('"');
}

impl From<bool> for Json {
    fn from(is: bool) -> Json {
        Json::Bool(is)
    }
}

impl From<&str> for Json {
    fn from(text: &str) -> Json {
        Json::Text(text.to_string())
    }
}

impl From<String> for Json {
    fn from(text: String) -> Json {
        Json::Text(text)
    }
}

impl From<i64> for Json {
    fn from(number: i64) -> Json {
        Json::Number(number)
    }
}

/// Of the numbers here none is above 2^63.
impl From<u64> for Json {
    fn from(number: u64) -> Json {
        Json::Number(number.try_into().unwrap_or(i64::MAX))
    }
}

impl From<usize> for Json {
    fn from(number: usize) -> Json {
        Json::Number(number.try_into().unwrap_or(i64::MAX))
    }
}

impl From<[i32; 2]> for Json {
    fn from(corner: [i32; 2]) -> Json {
        Json::List(corner.map(|part| Json::Number(part.into())).to_vec())
    }
}

impl From<&[[i32; 2]]> for Json {
    fn from(corners: &[[i32; 2]]) -> Json {
        Json::List(corners.iter().map(|&corner| Json::from(corner)).collect())
    }
}

impl<T: Into<Json>> From<Option<T>> for Json {
    fn from(value: Option<T>) -> Json {
        value.map_or(Json::Null, Into::into)
    }
}
