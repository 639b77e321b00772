//! The files that are read.
use crate::escape::escaped;
use std::ffi::OsStr;
use std::fs::File;
use std::io::{self, Read};
use std::sync::Arc;

/// The most bytes that a file may have.
pub const MOST_BYTES: u64 = 64 << 20;

/// A file that was read whole.
#[derive(Clone, Debug, PartialEq, Eq)]
pub struct Source {
    /// The file, as messages call it.
    pub name: Arc<str>,
    /// What it holds.
    pub bytes: Vec<u8>,
}

/// Why a file was not read.
#[derive(Debug)]
pub enum NotRead {
    /// It could not be opened or read.
    Failed(io::Error),
    /// It is longer than files may be.
    Long,
    /// Standard input was read already.
    Twice,
}

/// Returns what messages call a file.
#[must_use]
pub fn shown(path: &OsStr) -> Arc<str> {
    escaped(&path.to_string_lossy()).into()
}

/// Reads a file, or standard input for `-`, to its end.
///
/// # Errors
/// Why it was not read.
pub fn read(path: &OsStr, input: Option<&mut dyn Read>) -> Result<Source, NotRead> {
    let bytes = match input {
        _ if path != "-" => bounded(&mut File::open(path)?)?,
        Some(input) => bounded(input)?,
        None => return Err(NotRead::Twice),
    };
    let name = shown(path);
    Ok(Source { name, bytes })
}

/// Reads to the end, or to where it is too long.
fn bounded(from: &mut dyn Read) -> Result<Vec<u8>, NotRead> {
    let mut bytes = Vec::new();
    let read = from.take(MOST_BYTES + 1).read_to_end(&mut bytes)?;
    if read as u64 > MOST_BYTES {
        return Err(NotRead::Long);
    }
    Ok(bytes)
}

impl From<io::Error> for NotRead {
    fn from(error: io::Error) -> NotRead {
        NotRead::Failed(error)
    }
}

impl std::fmt::Display for NotRead {
    fn fmt(&self, f: &mut std::fmt::Formatter<'_>) -> std::fmt::Result {
        match self {
            NotRead::Failed(error) => write!(f, "cannot be read: {error}"),
            NotRead::Long => write!(f, "has more than {} MiB", MOST_BYTES >> 20),
            NotRead::Twice => f.write_str("standard input can be read only once"),
        }
    }
}
