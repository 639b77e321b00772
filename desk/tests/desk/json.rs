//! JSON, read back: strictly what the standard allows.
use std::collections::BTreeMap;
use std::iter::Peekable;
use std::str::Chars;

#[derive(Clone, Debug, PartialEq)]
pub enum Value {
    Null,
    Bool(bool),
    Number(i64),
    Text(String),
    List(Vec<Value>),
    Object(BTreeMap<String, Value>),
}

impl Value {
    /// The value of a key; nothing where there is none.
    pub fn get(&self, key: &str) -> Option<&Value> {
        match self {
            Value::Object(members) => members.get(key),
            _ => None,
        }
    }

    pub fn text(&self) -> Option<&str> {
        match self {
            Value::Text(text) => Some(text),
            _ => None,
        }
    }
}

/// Reads a value that is all of the text.
pub fn read(text: &str) -> Result<Value, String> {
    let mut left = text.chars().peekable();
    let value = value(&mut left)?;
    match left.next() {
        None => Ok(value),
        Some(c) => Err(format!("`{c}` after the value")),
    }
}

fn value(left: &mut Peekable<Chars<'_>>) -> Result<Value, String> {
    match left.peek().copied() {
        Some('{') => object(left),
        Some('[') => list(left),
        Some('"') => string(left).map(Value::Text),
        Some('-' | '0'..='9') => number(left),
        Some('t') => word(left, "true", Value::Bool(true)),
        Some('f') => word(left, "false", Value::Bool(false)),
        Some('n') => word(left, "null", Value::Null),
        other => Err(format!("no value begins with {other:?}")),
    }
}

fn word(left: &mut Peekable<Chars<'_>>, word: &str, value: Value) -> Result<Value, String> {
    for c in word.chars() {
        expect(left, c)?;
    }
    Ok(value)
}

fn expect(left: &mut Peekable<Chars<'_>>, wanted: char) -> Result<(), String> {
    match left.next() {
        Some(c) if c == wanted => Ok(()),
        other => Err(format!("{other:?} and not `{wanted}`")),
    }
}

fn number(left: &mut Peekable<Chars<'_>>) -> Result<Value, String> {
    let mut digits = String::new();
    while let Some(c) = left.next_if(|c| c.is_ascii_digit() || *c == '-') {
        digits.push(c);
    }
    digits
        .parse()
        .map(Value::Number)
        .map_err(|_| format!("no number: {digits}"))
}

fn string(left: &mut Peekable<Chars<'_>>) -> Result<String, String> {
    expect(left, '"')?;
    let mut text = String::new();
    loop {
        match left.next() {
            Some('"') => return Ok(text),
            Some('\\') => text.push(escape(left)?),
            Some(c) if c >= ' ' => text.push(c),
            other => return Err(format!("{other:?} in a text")),
        }
    }
}

fn escape(left: &mut Peekable<Chars<'_>>) -> Result<char, String> {
    match left.next() {
        Some(c @ ('"' | '\\' | '/')) => Ok(c),
        Some('u') => {
            let digits: String = left.by_ref().take(4).collect();
            let code = u32::from_str_radix(&digits, 16).map_err(|_| digits)?;
            char::from_u32(code).ok_or_else(|| format!("no character {code}"))
        }
        other => Err(format!("no escape {other:?}")),
    }
}

fn list(left: &mut Peekable<Chars<'_>>) -> Result<Value, String> {
    expect(left, '[')?;
    let mut values = Vec::new();
    if left.next_if_eq(&']').is_some() {
        return Ok(Value::List(values));
    }
    loop {
        values.push(value(left)?);
        match left.next() {
            Some(',') => {}
            Some(']') => return Ok(Value::List(values)),
            other => return Err(format!("{other:?} in a list")),
        }
    }
}

fn object(left: &mut Peekable<Chars<'_>>) -> Result<Value, String> {
    expect(left, '{')?;
    let mut members = BTreeMap::new();
    loop {
        let key = string(left)?;
        expect(left, ':')?;
        if members.insert(key.clone(), value(left)?).is_some() {
            return Err(format!("`{key}` twice"));
        }
        match left.next() {
            Some(',') => {}
            Some('}') => return Ok(Value::Object(members)),
            other => return Err(format!("{other:?} in an object")),
        }
    }
}
