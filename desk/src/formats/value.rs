//! JSON, read. Numbers stay the text that they are written with, so that nothing is rounded.
use super::{Why, Wrong};

/// How much a text may have.
#[derive(Clone, Copy, Debug, PartialEq, Eq)]
pub struct Bounds {
    /// How deep lists and objects may be in each other.
    pub depth: usize,
    /// The most keys of an object.
    pub keys: usize,
}

/// How much a file may have.
pub const FILE: Bounds = Bounds {
    depth: 64,
    keys: usize::MAX,
};

/// A value, and the line of the file that it begins on.
#[derive(Clone, Debug, PartialEq, Eq)]
pub struct Value {
    /// What it is.
    pub is: Is,
    /// The line, counted from 1.
    pub line: usize,
}

/// What a value is.
#[derive(Clone, Debug, PartialEq, Eq)]
pub enum Is {
    /// Nothing.
    Null,
    /// Yes or no.
    Bool(bool),
    /// A number, as it is written.
    Number(String),
    /// A text.
    Text(String),
    /// A list of values.
    List(Vec<Value>),
    /// Values by their keys, in order. No key is there twice.
    Object(Vec<(String, Value)>),
}

impl Value {
    /// Returns the value of a key; nothing if it is no object or has no such key.
    #[must_use]
    pub fn get(&self, key: &str) -> Option<&Value> {
        match &self.is {
            Is::Object(values) => values
                .iter()
                .find(|(own, _)| own == key)
                .map(|(_, value)| value),
            _ => None,
        }
    }

    /// Returns a text; nothing for another value.
    #[must_use]
    pub fn text(&self) -> Option<&str> {
        match &self.is {
            Is::Text(text) => Some(text),
            _ => None,
        }
    }

    /// Returns the values of a list; nothing for another value.
    #[must_use]
    pub fn list(&self) -> Option<&[Value]> {
        match &self.is {
            Is::List(values) => Some(values),
            _ => None,
        }
    }
}

/// Reads one value and nothing after it.
///
/// ```
/// use desk::formats::value::{FILE, Is, read};
///
/// let value = read("[1.50, true]", FILE).unwrap();
/// assert_eq!(value.list().unwrap()[0].is, Is::Number("1.50".to_string()));
/// assert!(read(&"[".repeat(100_000), FILE).is_err());
/// ```
///
/// # Errors
/// What is wrong, and where.
pub fn read(text: &str, bounds: Bounds) -> Result<Value, Wrong> {
    let mut reader = Reader {
        rest: text,
        line: 1,
        keys: bounds.keys,
    };
    let value = reader.value(bounds.depth)?;
    reader.blanks();
    if reader.rest.is_empty() {
        return Ok(value);
    }
    Err(reader.expected("the end"))
}

/// What is still to be read.
struct Reader<'a> {
    rest: &'a str,
    line: usize,
    keys: usize,
}

impl Reader<'_> {
    fn blanks(&mut self) {
        let is_blank = |c: char| matches!(c, ' ' | '\t' | '\r' | '\n');
        let more = self.rest.trim_start_matches(is_blank);
        let passed = self.rest.len() - more.len();
        let (blanks, _) = self.rest.split_at(passed);
        self.line += blanks.matches('\n').count();
        self.rest = more;
    }

    fn wrong(&self, why: Why) -> Wrong {
        Wrong {
            line: self.line,
            why,
        }
    }

    /// What is expected, and the word that is there instead.
    fn expected(&self, wanted: &'static str) -> Wrong {
        let is_end = |c: char| c.is_whitespace() || matches!(c, ',' | ':' | ']' | '}');
        let word: String = match self.rest.chars().next() {
            Some(sign) if is_end(sign) => sign.to_string(),
            _ => self
                .rest
                .chars()
                .take_while(|&c| !is_end(c))
                .take(60)
                .collect(),
        };
        self.wrong(Why::Expected(wanted, word))
    }

    /// Takes a sign, if it is next.
    fn has(&mut self, sign: char) -> bool {
        self.blanks();
        match self.rest.strip_prefix(sign) {
            Some(more) => {
                self.rest = more;
                true
            }
            None => false,
        }
    }

    /// A value in which lists and objects are at most this deep in each other.
    fn value(&mut self, depth: usize) -> Result<Value, Wrong> {
        self.blanks();
        let line = self.line;
        let is = match self.rest.chars().next() {
            Some('{' | '[') if depth == 0 => {
                return Err(self.wrong(Why::Geometry("lists are in lists too deep")));
            }
            Some('{') => self.object(depth - 1)?,
            Some('[') => self.list(depth - 1)?,
            Some('"') => Is::Text(self.text()?),
            Some('-' | '0'..='9') => self.number()?,
            _ => self.word()?,
        };
        Ok(Value { is, line })
    }

    fn word(&mut self) -> Result<Is, Wrong> {
        let words = [
            ("null", Is::Null),
            ("true", Is::Bool(true)),
            ("false", Is::Bool(false)),
        ];
        for (word, is) in words {
            if let Some(more) = self.rest.strip_prefix(word) {
                self.rest = more;
                return Ok(is);
            }
        }
        Err(self.expected("a value"))
    }

    fn number(&mut self) -> Result<Is, Wrong> {
        let is_of = |c: char| c.is_ascii_digit() || matches!(c, '-' | '+' | '.' | 'e' | 'E');
        let more = self.rest.trim_start_matches(is_of);
        let (number, _) = self.rest.split_at(self.rest.len() - more.len());
        if !is_number(number) {
            return Err(self.wrong(Why::NotANumber(number.to_string())));
        }
        self.rest = more;
        Ok(Is::Number(number.to_string()))
    }

    fn list(&mut self, depth: usize) -> Result<Is, Wrong> {
        let mut values = Vec::new();
        self.has('[');
        if self.has(']') {
            return Ok(Is::List(values));
        }
        loop {
            values.push(self.value(depth)?);
            if self.has(']') {
                return Ok(Is::List(values));
            }
            if !self.has(',') {
                return Err(self.expected(", or ]"));
            }
        }
    }

    fn object(&mut self, depth: usize) -> Result<Is, Wrong> {
        let mut values: Vec<(String, Value)> = Vec::new();
        self.has('{');
        if self.has('}') {
            return Ok(Is::Object(values));
        }
        loop {
            let (key, value) = self.member(depth)?;
            if values.len() == self.keys {
                return Err(self.wrong(Why::Geometry("an object has too many keys")));
            }
            if values.iter().any(|(other, _)| *other == key) {
                return Err(self.wrong(Why::Geometry("a key is there twice in one object")));
            }
            values.push((key, value));
            if self.has('}') {
                return Ok(Is::Object(values));
            }
            if !self.has(',') {
                return Err(self.expected(", or }"));
            }
        }
    }

    /// A key and its value.
    fn member(&mut self, depth: usize) -> Result<(String, Value), Wrong> {
        self.blanks();
        let key = self.text()?;
        if !self.has(':') {
            return Err(self.expected(": after a key"));
        }
        Ok((key, self.value(depth)?))
    }

    fn text(&mut self) -> Result<String, Wrong> {
        let Some(mut rest) = self.rest.strip_prefix('"') else {
            return Err(self.expected("a text in quotes"));
        };
        let mut text = String::new();
        loop {
            let mut signs = rest.chars();
            match signs.next() {
                Some('"') => {
                    self.rest = signs.as_str();
                    return Ok(text);
                }
                Some('\\') => {
                    let (sign, more) = escaped(signs.as_str())
                        .ok_or_else(|| self.wrong(Why::Geometry("an escape of a text is wrong")))?;
                    text.push(sign);
                    rest = more;
                }
                Some(sign) if u32::from(sign) >= 0x20 => {
                    text.push(sign);
                    rest = signs.as_str();
                }
                _ => return Err(self.wrong(Why::Geometry("a text does not end on its line"))),
            }
        }
    }
}

/// The sign of an escape, and what is after it.
fn escaped(text: &str) -> Option<(char, &str)> {
    let mut signs = text.chars();
    let sign = match signs.next()? {
        'b' => '\u{8}',
        'f' => '\u{c}',
        'n' => '\n',
        'r' => '\r',
        't' => '\t',
        'u' => return unicode(signs.as_str()),
        sign @ ('"' | '\\' | '/') => sign,
        _ => return None,
    };
    Some((sign, signs.as_str()))
}

/// The sign of four hexadecimal digits, or of two such escapes that belong together.
fn unicode(text: &str) -> Option<(char, &str)> {
    let (high, rest) = hexadecimal(text)?;
    if let Some(sign) = char::from_u32(high) {
        return Some((sign, rest));
    }
    let (low, rest) = hexadecimal(rest.strip_prefix("\\u")?)?;
    let both = high.checked_sub(0xD800).zip(low.checked_sub(0xDC00));
    let (high, low) = both.filter(|(high, low)| *high < 0x400 && *low < 0x400)?;
    let sign = char::from_u32(0x10000 + (high << 10) + low)?;
    Some((sign, rest))
}

fn hexadecimal(text: &str) -> Option<(u32, &str)> {
    let (digits, rest) = text.split_at_checked(4)?;
    let is_digits = digits.bytes().all(|byte| byte.is_ascii_hexdigit());
    let number = u32::from_str_radix(digits, 16).ok().filter(|_| is_digits)?;
    Some((number, rest))
}

/// Whether a text is a number as JSON has them: no zero before another digit, and digits on both sides of a point.
fn is_number(text: &str) -> bool {
    let digits = |text: &str| !text.is_empty() && text.bytes().all(|byte| byte.is_ascii_digit());
    let text = text.strip_prefix('-').unwrap_or(text);
    let (number, exponent) = text.split_once(['e', 'E']).unwrap_or((text, "0"));
    let (whole, decimals) = number.split_once('.').unwrap_or((number, "0"));
    let power = exponent.strip_prefix(['+', '-']).unwrap_or(exponent);
    let is_plain = whole == "0" || !whole.starts_with('0');
    is_plain && digits(whole) && digits(decimals) && digits(power)
}
