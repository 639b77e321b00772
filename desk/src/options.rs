//! Arguments of a command: options, their values, and files.
use crate::escape::quoted;
use crate::name::most_like;
use std::ffi::{OsStr, OsString};
use std::fmt;

/// An option that a command has.
#[derive(Clone, Copy, Debug, PartialEq, Eq)]
pub struct Known {
    /// What it is called, with its dashes.
    pub name: &'static str,
    /// What its value is called; nothing if it has none.
    pub value: Option<&'static str>,
    /// What it does.
    pub does: &'static str,
    /// Whether it may be given several times.
    pub many: bool,
}

/// The arguments of a command, taken apart.
#[derive(Clone, Debug, Default, PartialEq, Eq)]
pub struct Arguments {
    /// The options, in order.
    pub options: Vec<(&'static str, OsString)>,
    /// The files, in order.
    pub files: Vec<OsString>,
    /// Whether help is asked for.
    pub help: bool,
}

/// Why arguments cannot be used.
#[derive(Clone, Debug, PartialEq, Eq)]
pub enum Misuse {
    /// There is no such option.
    UnknownOption(String, Option<&'static str>),
    /// An option needs a value.
    MissingValue(&'static str, &'static str),
    /// An option has no value.
    NeedlessValue(&'static str),
    /// An option is given twice.
    Twice(&'static str),
    /// A value is not what the option needs.
    BadValue(&'static str, String, &'static str),
    /// No file is given.
    NoFile,
    /// Something else.
    Other(String),
}

/// Takes arguments apart. After `--` all are files; `-` is a file, standard input. A minus before a digit is no option.
///
/// # Errors
/// Why they cannot be used.
pub fn parse(known: &[Known], arguments: &[OsString]) -> Result<Arguments, Misuse> {
    let mut parsed = Arguments::default();
    let mut left = arguments.iter();
    while let Some(argument) = left.next() {
        let text = argument.to_string_lossy();
        match &*text {
            "--" => parsed.files.extend(left.by_ref().cloned()),
            "-h" | "--help" => parsed.help = true,
            "-" => parsed.files.push(argument.clone()),
            option if option.starts_with('-') && !is_negative(option) => {
                let (name, value) = split(argument, option);
                let option = find(known, &name)?;
                let given = parsed
                    .options
                    .iter()
                    .any(|(other, _)| *other == option.name);
                if given && !option.many {
                    return Err(Misuse::Twice(option.name));
                }
                parsed
                    .options
                    .push((option.name, value_of(option, value, &mut left)?));
            }
            _ => parsed.files.push(argument.clone()),
        }
    }
    Ok(parsed)
}

/// Whether a word that begins with a minus is a number. No option begins so.
fn is_negative(word: &str) -> bool {
    word.chars().nth(1).is_some_and(|c| c.is_ascii_digit())
}

/// The name of an option, and the value after its equals sign.
fn split(argument: &OsStr, text: &str) -> (String, Option<OsString>) {
    match text.split_once('=') {
        // A value that is not Unicode has to be an argument of its own.
        Some((name, value)) if argument.to_str().is_some() => {
            (name.to_string(), Some(value.into()))
        }
        _ => (text.to_string(), None),
    }
}

fn find(known: &[Known], name: &str) -> Result<Known, Misuse> {
    let found = known.iter().find(|option| option.name == name);
    found.copied().ok_or_else(|| {
        let like = most_like(name, known.iter().map(|option| option.name));
        Misuse::UnknownOption(name.to_string(), like)
    })
}

fn value_of<'a>(
    option: Known,
    value: Option<OsString>,
    left: &mut impl Iterator<Item = &'a OsString>,
) -> Result<OsString, Misuse> {
    match (option.value, value) {
        (None, None) => Ok(OsString::new()),
        (None, Some(_)) => Err(Misuse::NeedlessValue(option.name)),
        (Some(_), Some(value)) => Ok(value),
        (Some(holds), None) => left
            .next()
            .cloned()
            .ok_or(Misuse::MissingValue(option.name, holds)),
    }
}

impl Arguments {
    /// Returns whether an option is given.
    #[must_use]
    pub fn has(&self, name: &str) -> bool {
        self.options.iter().any(|(option, _)| *option == name)
    }

    /// Returns the value of an option.
    #[must_use]
    pub fn value(&self, name: &'static str) -> Option<&OsStr> {
        self.values(name).next()
    }

    /// Returns all values of an option.
    pub fn values(&self, name: &'static str) -> impl Iterator<Item = &OsStr> {
        let given = self
            .options
            .iter()
            .filter(move |(option, _)| *option == name);
        given.map(|(_, value)| value.as_os_str())
    }
}

impl fmt::Display for Misuse {
    fn fmt(&self, f: &mut fmt::Formatter<'_>) -> fmt::Result {
        match self {
            Misuse::UnknownOption(name, like) => {
                write!(f, "there is no option {}", quoted(name))?;
                match like {
                    Some(like) => write!(f, " (did you mean `{like}`?)"),
                    None => Ok(()),
                }
            }
            Misuse::MissingValue(name, holds) => {
                write!(f, "`{name}` needs a value: {name} {holds}")
            }
            Misuse::NeedlessValue(name) => write!(f, "`{name}` has no value"),
            Misuse::Twice(name) => write!(f, "`{name}` is given twice"),
            Misuse::BadValue(name, found, wanted) => {
                write!(f, "`{name}` needs {wanted}, and not {}", quoted(found))
            }
            Misuse::NoFile => f.write_str("no file is given (`-` is standard input)"),
            Misuse::Other(text) => f.write_str(text),
        }
    }
}
