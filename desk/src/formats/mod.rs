//! Shapes in formats of other programs: read exactly, or not at all, and written.
//!
//! | module | subject |
//! |---|---|
//! | [`wkt`] | WKT, one geometry a line |
//! | [`geojson`] | `GeoJSON` |
//! | [`value`] | JSON, read; also that of a request |
pub mod geojson;
pub mod value;
pub mod wkt;

use crate::escape::quoted;
use crate::name::{BadName, Name};
use crate::report::not_whole;
use crate::unit::{Inexact, Unit};
use std::collections::HashMap;
use std::fmt;

/// A shape of another program's file. Its points are in the file's order, and nothing is known of them.
#[derive(Clone, Debug, PartialEq, Eq)]
pub struct Feature {
    /// Its name; without one it is called by its number.
    pub name: Option<Name>,
    /// Where it is.
    pub place: Where,
    /// Its points, x and y by turns. A ring may be closed.
    pub numbers: Vec<i32>,
    /// The line of the file that it begins on, counted from 1.
    pub line: usize,
}

/// Where a shape of another program's file is.
#[derive(Clone, Copy, Debug, PartialEq, Eq)]
pub enum Where {
    /// Nothing is said.
    Unsaid,
    /// Nowhere: it is an outline.
    Outline,
    /// On this floor.
    Floor(u16),
}

/// What is wrong with a line of another program's file.
#[derive(Clone, Debug, PartialEq, Eq)]
pub struct Wrong {
    /// The line of the file, counted from 1.
    pub line: usize,
    /// What is wrong.
    pub why: Why,
}

/// What is wrong with a shape of another program's file.
#[derive(Clone, Debug, PartialEq, Eq)]
pub enum Why {
    /// A number is no whole number of millimetres: refusal 18.
    NotWhole(String, Unit),
    /// A word is no number.
    NotANumber(String),
    /// A number is not in 32 bits.
    Large(String),
    /// A word is no name.
    NotAName(String, BadName),
    /// A word or a value is no floor.
    NotAFloor(String),
    /// A name is given twice, first on this line.
    Twice(Name, usize),
    /// Another thing is expected.
    Expected(&'static str, String),
    /// A geometry that is no convex shape, or not one alone.
    Geometry(&'static str),
}

impl Why {
    /// Returns whether it is a refusal, and not a file that cannot be read.
    #[must_use]
    pub fn is_refusal(&self) -> bool {
        matches!(self, Why::NotWhole(..))
    }
}

/// Reads shapes of either format: a file that begins with a brace is `GeoJSON`.
///
/// # Errors
/// All that is wrong with them.
pub fn read(text: &str, unit: Unit) -> Result<Vec<Feature>, Vec<Wrong>> {
    let features = match text.trim_start().chars().next() {
        Some('{') => geojson::read(text, unit),
        _ => wkt::read(text, unit),
    };
    let features = features?;
    let again = named_twice(&features);
    if again.is_empty() {
        return Ok(features);
    }
    Err(again)
}

/// The names that are given twice.
fn named_twice(features: &[Feature]) -> Vec<Wrong> {
    let mut first: HashMap<Name, usize> = HashMap::new();
    let mut again = Vec::new();
    for (number, feature) in (1..).zip(features) {
        let Some(name) = feature.called(number) else {
            continue;
        };
        match first.get(&name) {
            Some(&at) => again.push(Wrong {
                line: feature.line,
                why: Why::Twice(name, at),
            }),
            None => drop(first.insert(name, feature.line)),
        }
    }
    again
}

impl Feature {
    /// Returns its name; without one `shape-` and its number among all.
    #[must_use]
    pub fn called(&self, number: usize) -> Option<Name> {
        let own = || Name::read(&format!("shape-{number}")).ok();
        self.name.clone().or_else(own)
    }
}

/// A coordinate in a unit.
fn coordinate(text: &str, unit: Unit) -> Result<i32, Why> {
    let found = text.to_string();
    unit.millimetres_of_exponent(text).map_err(|why| match why {
        Inexact::NotANumber => Why::NotANumber(found),
        Inexact::NotWhole => Why::NotWhole(found, unit),
        Inexact::Large => Why::Large(found),
    })
}

fn name_of(text: &str) -> Result<Name, Why> {
    Name::read(text).map_err(|why| Why::NotAName(text.to_string(), why))
}

impl fmt::Display for Why {
    fn fmt(&self, f: &mut fmt::Formatter<'_>) -> fmt::Result {
        match self {
            Why::NotWhole(found, unit) => write!(f, "refused (18): {}", not_whole(found, *unit)),
            Why::NotANumber(found) => write!(f, "{} is not a number", quoted(found)),
            Why::Large(found) => {
                let most = cocklesway::limits().coordinate;
                write!(
                    f,
                    "{} is out of range: coordinates go from -{most} to {most} mm",
                    quoted(found)
                )
            }
            Why::NotAName(found, why) => write!(f, "{} is no name: {why}", quoted(found)),
            Why::NotAFloor(found) => {
                let most = cocklesway::limits().floor;
                write!(f, "{} is no floor: floors are 0 to {most}", quoted(found))
            }
            Why::Twice(name, line) => write!(f, "the name {name} is given on line {line} already"),
            Why::Expected(wanted, found) if found.is_empty() => {
                write!(f, "{wanted} is expected, and here is nothing more")
            }
            Why::Expected(wanted, found) => {
                write!(f, "{wanted} is expected, and not {}", quoted(found))
            }
            Why::Geometry(text) => f.write_str(text),
        }
    }
}

impl fmt::Display for Wrong {
    fn fmt(&self, f: &mut fmt::Formatter<'_>) -> fmt::Result {
        write!(f, "line {}: {}", self.line, self.why)
    }
}
