//! SVG, written: elements with attributes and texts, all escaped.
use std::fmt::{Display, Write};

/// Attributes of an element, by their names.
pub type Attributes<'a> = [(&'a str, &'a dyn Display)];

/// A picture that is being written.
#[derive(Clone, Debug, Default)]
pub struct Svg {
    text: String,
}

impl Svg {
    /// Writes an element without content.
    pub fn empty(&mut self, name: &str, attributes: &Attributes<'_>) {
        self.open_tag(name, attributes);
        self.text.push_str("/>\n");
    }

    /// Begins an element.
    pub fn open(&mut self, name: &str, attributes: &Attributes<'_>) {
        self.open_tag(name, attributes);
        self.text.push_str(">\n");
    }

    /// Ends an element.
    pub fn close(&mut self, name: &str) {
        // Writing to a string cannot fail.
        let _ = writeln!(self.text, "</{name}>");
    }

    /// Writes an element that holds a text.
    pub fn text(&mut self, name: &str, attributes: &Attributes<'_>, text: &str) {
        self.open_tag(name, attributes);
        let _ = writeln!(self.text, ">{}</{name}>", escaped(text));
    }

    fn open_tag(&mut self, name: &str, attributes: &Attributes<'_>) {
        let _ = write!(self.text, "<{name}");
        for (key, value) in attributes {
            let _ = write!(self.text, " {key}=\"{}\"", escaped(&value.to_string()));
        }
    }

    /// Returns the text.
    #[must_use]
    pub fn finish(self) -> String {
        self.text
    }
}

/// A text with the signs escaped that XML takes for its own.
fn escaped(text: &str) -> String {
    let mut safe = String::with_capacity(text.len());
    for c in text.chars() {
        match c {
            '&' => safe.push_str("&amp;"),
            '<' => safe.push_str("&lt;"),
            '>' => safe.push_str("&gt;"),
            '"' => safe.push_str("&quot;"),
            c => safe.push(c),
        }
    }
    safe
}

/// A number of pixels, with at most two decimals.
#[derive(Clone, Copy, Debug, PartialEq)]
pub struct Px(pub f64);

impl Display for Px {
    fn fmt(&self, f: &mut std::fmt::Formatter<'_>) -> std::fmt::Result {
        let text = format!("{:.2}", self.0);
        let short = text.trim_end_matches('0').trim_end_matches('.');
        f.write_str(if short == "-0" { "0" } else { short })
    }
}

/// A number of millimetres with six decimals, since a pixel may be much less than one.
#[derive(Clone, Copy, Debug, PartialEq)]
pub struct Mm(pub f64);

impl Display for Mm {
    fn fmt(&self, f: &mut std::fmt::Formatter<'_>) -> std::fmt::Result {
        write!(f, "{:.6}", self.0)
    }
}
