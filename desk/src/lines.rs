//! A file taken apart: lines, their fields, and the words of these.
//!
//! - `#` begins a comment, also after blanks and at the end of a line.
//! - A line whose first sign is `+` continues the line before it; comments may be between them.
//! - Fields are separated by `|`, words by blanks and tabs; `=` is a word of its own.
//!
//! Nothing is dropped but comments and blanks: every other line of a file is a line here, or a part of one.
use crate::fault::Fault;
use std::borrow::Cow;
use std::mem;

/// A word, and the line of the file that it is on.
#[derive(Clone, Copy, Debug, PartialEq, Eq)]
pub struct Word<'a> {
    /// Its text.
    pub text: &'a str,
    /// The line, counted from 1.
    pub line: usize,
}

/// The words between two bars.
#[derive(Clone, Debug, Default, PartialEq, Eq)]
pub struct Field<'a> {
    /// Its words.
    pub words: Vec<Word<'a>>,
    /// The line of the file that it begins on, counted from 1.
    pub line: usize,
}

/// A line with those that continue it.
#[derive(Clone, Debug, Default, PartialEq)]
pub struct Line<'a> {
    /// The line of the file that it begins on, counted from 1.
    pub number: usize,
    /// Its fields; there is at least one.
    pub fields: Vec<Field<'a>>,
    /// What is wrong with its characters, and on which line of the file.
    pub fault: Option<(usize, Fault)>,
}

impl<'a> Line<'a> {
    /// Returns the words of a field; none if there is no such field.
    #[must_use]
    pub fn words(&self, field: usize) -> &[Word<'a>] {
        self.fields
            .get(field)
            .map_or(&[], |field| field.words.as_slice())
    }
}

/// Returns the text of a file. Bytes that are no text are replaced; the lines that have them have a fault.
#[must_use]
pub fn text_of(bytes: &[u8]) -> Cow<'_, str> {
    String::from_utf8_lossy(bytes.strip_prefix(b"\xEF\xBB\xBF").unwrap_or(bytes))
}

/// Takes a file apart. The text is that of [`text_of`] for these bytes.
#[must_use]
pub fn lines<'a>(bytes: &[u8], text: &'a str) -> Vec<Line<'a>> {
    let bytes = bytes.strip_prefix(b"\xEF\xBB\xBF").unwrap_or(bytes);
    let mut reader = Reader::default();
    let rows = text.split('\n').zip(bytes.split(|&byte| byte == b'\n'));
    for (number, (row, bytes)) in (1..).zip(rows) {
        reader.row(number, row, bytes);
    }
    reader.end()
}

/// The lines so far, and the one that may be continued.
#[derive(Default)]
struct Reader<'a> {
    lines: Vec<Line<'a>>,
    open: Option<Line<'a>>,
}

impl<'a> Reader<'a> {
    /// Takes the next line of the file.
    fn row(&mut self, number: usize, row: &'a str, bytes: &[u8]) {
        let said = before_comment(row);
        let blank = said.trim_matches(is_blank).is_empty();
        if blank && said.len() < row.len() {
            return;
        }
        if blank {
            self.close();
            return;
        }
        let fault = fault_of(said, bytes).map(|fault| (number, fault));
        match said.trim_start_matches(is_blank).strip_prefix('+') {
            Some(more) => self.continued(number, more, fault),
            None => self.begun(number, said, fault),
        }
    }

    fn begun(&mut self, number: usize, said: &'a str, fault: Option<(usize, Fault)>) {
        self.close();
        let fields = Vec::new();
        let mut line = Line {
            number,
            fields,
            fault,
        };
        add_fields(&mut line, number, said, true);
        self.open = Some(line);
    }

    fn continued(&mut self, number: usize, more: &'a str, fault: Option<(usize, Fault)>) {
        match &mut self.open {
            Some(line) => {
                add_fields(line, number, more, false);
                line.fault = mem::take(&mut line.fault).or(fault);
            }
            None => self.begun(number, more, Some((number, Fault::NothingToContinue))),
        }
    }

    fn close(&mut self) {
        self.lines.extend(self.open.take());
    }

    fn end(mut self) -> Vec<Line<'a>> {
        self.close();
        self.lines
    }
}

/// Adds the fields of a text; its first words belong to the last field unless a new one is begun.
fn add_fields<'a>(line: &mut Line<'a>, number: usize, text: &'a str, begin: bool) {
    for (position, text) in text.split('|').enumerate() {
        if begin || position > 0 {
            let words = Vec::new();
            line.fields.push(Field {
                words,
                line: number,
            });
        }
        if let Some(field) = line.fields.last_mut() {
            field.words.extend(words_of(text, number));
        }
    }
}

fn words_of(text: &str, line: usize) -> impl Iterator<Item = Word<'_>> {
    let parts = text
        .split(is_blank)
        .flat_map(|part| part.split_inclusive('='));
    let words = parts.flat_map(|part| match part.strip_suffix('=') {
        Some(before) => [before, "="],
        None => [part, ""],
    });
    words
        .filter(|text| !text.is_empty())
        .map(move |text| Word { text, line })
}

fn is_blank(c: char) -> bool {
    c == ' ' || c == '\t'
}

/// What a line says: all before its comment and the end of the line.
fn before_comment(row: &str) -> &str {
    match row.split_once('#') {
        Some((said, _)) => said,
        None => row.strip_suffix('\r').unwrap_or(row),
    }
}

/// What is wrong with the characters of what a line says.
fn fault_of(said: &str, bytes: &[u8]) -> Option<Fault> {
    let bytes = bytes.split(|&byte| byte == b'#').next().unwrap_or(bytes);
    if let Err(error) = std::str::from_utf8(bytes) {
        let (good, rest) = bytes.split_at(error.valid_up_to());
        let column = String::from_utf8_lossy(good).chars().count() + 1;
        let byte = rest.first().copied().unwrap_or_default();
        return Some(Fault::NotText { byte, column });
    }
    let control = |&(_, c): &(usize, char)| c.is_control() && c != '\t';
    let found = (1..).zip(said.chars()).find(control);
    found.map(|(column, sign)| Fault::Control { sign, column })
}
