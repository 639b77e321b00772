//! Why a line cannot be read.
use crate::escape::quoted;
use crate::name::{BadName, Name};
use crate::place::Place;
use std::fmt;

/// Why a line cannot be read.
#[derive(Clone, Debug, PartialEq)]
pub enum Fault {
    /// A byte that is not UTF-8.
    NotText {
        /// The byte.
        byte: u8,
        /// The character of the line, counted from 1.
        column: usize,
    },
    /// A control character.
    Control {
        /// The character.
        sign: char,
        /// The character of the line, counted from 1.
        column: usize,
    },
    /// A line begins with `+`, and there is no line before it.
    NothingToContinue,
    /// A line has numbers and no word before them.
    LeftOver {
        /// The line before it, and the name that it defines.
        before: Option<(Place, Option<Name>)>,
    },
    /// The line after it has numbers and no word before them, so it may not be whole.
    NumbersAfter {
        /// The line of the file.
        line: usize,
    },
    /// The first word is none that begins a line.
    UnknownWord {
        /// What is there instead.
        found: String,
        /// A known word that is like it.
        like: Option<&'static str>,
    },
    /// A field is missing.
    MissingField {
        /// The question.
        question: &'static str,
        /// The field.
        field: &'static str,
    },
    /// There are more fields than the question has.
    TooManyFields {
        /// The question.
        question: &'static str,
        /// How many it has.
        most: usize,
    },
    /// A word is no name.
    NotAName {
        /// What is there instead.
        found: String,
        /// Why it is none.
        why: BadName,
    },
    /// A name that no shape has.
    UnknownName {
        /// The word.
        found: String,
        /// A name that is like it.
        like: Option<Name>,
    },
    /// A name where numbers are expected.
    NameAmongNumbers {
        /// The word.
        found: String,
    },
    /// A word that is no whole number.
    NotANumber {
        /// The word.
        found: String,
    },
    /// A number that is not in 32 bits.
    LargeNumber {
        /// The word.
        found: String,
    },
    /// A word that begins with `@` and is no floor.
    NotAFloor {
        /// The word.
        found: String,
    },
    /// A floor that is not at the front of a list.
    MisplacedFloor {
        /// The word.
        found: String,
    },
    /// A word that is no unit.
    NotAUnit {
        /// The word.
        found: String,
    },
    /// A length after a line that should say its unit and cannot be read.
    NoUnit,
    /// A floor before the corners of an outline.
    FloorOfOutline,
    /// Another count of words than the field has.
    WrongCount {
        /// What the field holds.
        wanted: &'static str,
        /// How many words there are.
        found: usize,
    },
    /// A word that is not what the field holds.
    NotA {
        /// What the field holds.
        wanted: &'static str,
        /// The word.
        found: String,
    },
    /// A question that answers no shape is given a name.
    NoShape {
        /// The question.
        question: &'static str,
    },
    /// A name is defined by two files.
    TwoFiles {
        /// The name.
        name: Name,
        /// Where it is defined first.
        first: Place,
    },
}

impl Fault {
    /// Returns the fault of a word that is not what a field holds.
    #[must_use]
    pub fn not_a(wanted: &'static str, found: &str) -> Fault {
        let found = found.to_string();
        Fault::NotA { wanted, found }
    }
}

impl fmt::Display for Fault {
    fn fmt(&self, f: &mut fmt::Formatter<'_>) -> fmt::Result {
        match self {
            Fault::NotText { .. } | Fault::Control { .. } => self.characters(f),
            Fault::NothingToContinue
            | Fault::LeftOver { .. }
            | Fault::NumbersAfter { .. }
            | Fault::UnknownWord { .. } => self.line(f),
            Fault::MissingField { .. }
            | Fault::TooManyFields { .. }
            | Fault::WrongCount { .. }
            | Fault::NotA { .. } => self.fields(f),
            Fault::NotAName { .. }
            | Fault::UnknownName { .. }
            | Fault::NameAmongNumbers { .. }
            | Fault::NoShape { .. }
            | Fault::TwoFiles { .. } => self.names(f),
            _ => self.numbers(f),
        }
    }
}

impl Fault {
    fn characters(&self, f: &mut fmt::Formatter<'_>) -> fmt::Result {
        match self {
            Fault::NotText { byte, column } => {
                write!(f, "byte 0x{byte:02X} at character {column} is not UTF-8")
            }
            Fault::Control { sign, column } => {
                let sign = quoted(sign.encode_utf8(&mut [0; 4]));
                write!(
                    f,
                    "there is a control character {sign} at character {column}"
                )
            }
            _ => Ok(()),
        }
    }

    fn line(&self, f: &mut fmt::Formatter<'_>) -> fmt::Result {
        match self {
            Fault::NothingToContinue => {
                f.write_str("`+` continues the line before it, and there is none")
            }
            Fault::LeftOver { before } => left_over(f, before.as_ref()),
            Fault::NumbersAfter { line } => {
                write!(
                    f,
                    "the line may not be whole, and is left out: line {line} has numbers left over"
                )
            }
            Fault::UnknownWord { found, like } => {
                match found.as_str() {
                    "" => f.write_str("the line has no word before its first bar")?,
                    _ => write!(f, "{} is no word that begins a line", quoted(found))?,
                }
                meant(f, *like)
            }
            _ => Ok(()),
        }
    }

    fn fields(&self, f: &mut fmt::Formatter<'_>) -> fmt::Result {
        match self {
            Fault::MissingField { question, field } => {
                write!(
                    f,
                    "`{question}` needs one more field: {field} (fields are separated by |)"
                )
            }
            Fault::TooManyFields { question, most } => {
                let fields = if *most == 1 { "field" } else { "fields" };
                write!(
                    f,
                    "`{question}` has at most {most} {fields}, and here are more"
                )
            }
            Fault::WrongCount { wanted, found } => {
                let words = if *found == 1 { "word" } else { "words" };
                write!(
                    f,
                    "the field holds {wanted}, and here it has {found} {words}"
                )
            }
            Fault::NotA { wanted, found } => write!(f, "{} is not {wanted}", quoted(found)),
            _ => Ok(()),
        }
    }

    fn names(&self, f: &mut fmt::Formatter<'_>) -> fmt::Result {
        match self {
            Fault::NotAName { found, why } => write!(f, "{} is no name: {why}", quoted(found)),
            Fault::UnknownName { found, like } => {
                write!(f, "no shape before this line is called {}", quoted(found))?;
                meant(f, like.as_ref().map(Name::as_str))
            }
            Fault::NameAmongNumbers { found } => {
                let found = quoted(found);
                write!(
                    f,
                    "{found} is not a number; a name must be alone in its field, and it brings its floor along"
                )
            }
            Fault::NoShape { question } => {
                write!(
                    f,
                    "`{question}` answers no shape, so its answer can have no name"
                )
            }
            Fault::TwoFiles { name, first } => write!(
                f,
                "`{name}` is already defined at {first}, in another file; \
                 ask each map by itself, or give the shape another name"
            ),
            _ => Ok(()),
        }
    }

    fn numbers(&self, f: &mut fmt::Formatter<'_>) -> fmt::Result {
        match self {
            Fault::NotANumber { found } => {
                write!(f, "{} is not a whole number of millimetres", quoted(found))
            }
            Fault::LargeNumber { found } => {
                let most = cocklesway::limits().coordinate;
                let found = quoted(found);
                write!(f, "{found} is not in 32 bits; coordinates go from -{most} to {most} mm")
            }
            Fault::NotAFloor { found } => {
                let most = cocklesway::limits().floor;
                write!(f, "{} is no floor: floors are @0 to @{most}", quoted(found))
            }
            Fault::MisplacedFloor { found } => {
                write!(f, "the floor {} must be before all numbers of its field", quoted(found))
            }
            Fault::NotAUnit { found } => {
                write!(f, "{} is no unit: write `unit mm`, `unit cm` or `unit m`", quoted(found))
            }
            Fault::NoUnit => f.write_str("its unit is not known: a line `unit` before it cannot be read"),
            Fault::FloorOfOutline => f.write_str(
                "an outline has no floor, it takes that of the question; a shape on a floor begins with `shape`",
            ),
            _ => Ok(()),
        }
    }
}

/// Says what a left over line should be.
fn left_over(f: &mut fmt::Formatter<'_>, before: Option<&(Place, Option<Name>)>) -> fmt::Result {
    f.write_str("there are numbers left over on a line of their own")?;
    match before {
        Some((place, Some(name))) => write!(
            f,
            " after `{name}` ({place}); begin this line with + if they are its corners"
        ),
        Some((place, None)) => write!(
            f,
            " after {place}; begin this line with + to continue that one"
        ),
        None => f.write_str("; a line begins with a word, such as `shape`"),
    }
}

/// Says which known word may have been meant.
fn meant(f: &mut fmt::Formatter<'_>, like: Option<&str>) -> fmt::Result {
    match like {
        Some(like) => write!(f, " (did you mean `{like}`?)"),
        None => Ok(()),
    }
}
