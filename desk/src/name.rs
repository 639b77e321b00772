//! Names of shapes.
use std::fmt;
use std::sync::Arc;

/// The most characters that a name may have.
pub const MOST_CHARACTERS: usize = 64;

/// The name of a shape: letters and digits of any script, `-` and `_`, with a letter or `_` among them, so
/// that it is no number.
///
/// ```
/// use desk::name::Name;
///
/// assert!(Name::read("Wäschekammer-2").is_ok());
/// assert!(Name::read("2-3").is_err());
/// ```
#[derive(Clone, Debug, PartialEq, Eq, Hash, PartialOrd, Ord)]
pub struct Name(Arc<str>);

/// Why a word is no name.
#[derive(Clone, Copy, Debug, PartialEq, Eq)]
pub enum BadName {
    /// It has a character that names do not have.
    Sign(char),
    /// It has no letter and no `_`.
    NoLetter,
    /// It is too long.
    Long,
}

impl Name {
    /// Reads a name.
    ///
    /// # Errors
    /// Why the word is no name.
    pub fn read(word: &str) -> Result<Name, BadName> {
        if let Some(sign) = word.chars().find(|&c| !is_of_name(c)) {
            return Err(BadName::Sign(sign));
        }
        if !word.chars().any(|c| c.is_alphabetic() || c == '_') {
            return Err(BadName::NoLetter);
        }
        if word.chars().count() > MOST_CHARACTERS {
            return Err(BadName::Long);
        }
        Ok(Name(word.into()))
    }

    /// Returns its text.
    #[must_use]
    pub fn as_str(&self) -> &str {
        &self.0
    }
}

/// Whether names may have the character.
fn is_of_name(c: char) -> bool {
    c.is_alphanumeric() || c == '-' || c == '_'
}

/// Returns the known word that is most like a word which is not known, if one is much like it.
///
/// ```
/// use desk::name::most_like;
///
/// assert_eq!(most_like("linnen", ["linen", "wall"].into_iter()), Some("linen"));
/// assert_eq!(most_like("bed", ["linen", "wall"].into_iter()), None);
/// ```
pub fn most_like<'a>(word: &str, known: impl Iterator<Item = &'a str>) -> Option<&'a str> {
    let most = (word.chars().count() / 3).min(2);
    let near = known.map(|other| (changes(word, other), other));
    let best = near
        .filter(|&(count, _)| count <= most)
        .min_by_key(|&(count, _)| count);
    best.map(|(_, other)| other)
}

/// How many letters have to be added, left out or changed to make one word of the other (Levenshtein). Capitals are
/// taken for small letters. Words of very different lengths are far apart without a count.
fn changes(a: &str, b: &str) -> usize {
    let a: Vec<char> = a.to_lowercase().chars().collect();
    let b: Vec<char> = b.to_lowercase().chars().collect();
    if a.len().abs_diff(b.len()) > 2 {
        return usize::MAX;
    }
    let mut row: Vec<usize> = (0..=b.len()).collect();
    for (i, x) in a.iter().enumerate() {
        let mut diagonal = i;
        let mut left = i + 1;
        let mut next = vec![left];
        for (above, y) in row.iter().skip(1).zip(&b) {
            left = (above + 1)
                .min(left + 1)
                .min(diagonal + usize::from(x != y));
            diagonal = *above;
            next.push(left);
        }
        row = next;
    }
    row.last().copied().unwrap_or(usize::MAX)
}

impl fmt::Display for Name {
    fn fmt(&self, f: &mut fmt::Formatter<'_>) -> fmt::Result {
        f.write_str(&self.0)
    }
}

impl fmt::Display for BadName {
    fn fmt(&self, f: &mut fmt::Formatter<'_>) -> fmt::Result {
        match self {
            BadName::Sign(sign) => {
                let sign = crate::escape::quoted(sign.encode_utf8(&mut [0; 4]));
                write!(f, "a name has letters, digits, - and _, and no {sign}")
            }
            BadName::NoLetter => f.write_str("a name has a letter or _, a number has none"),
            BadName::Long => write!(f, "a name has at most {MOST_CHARACTERS} characters"),
        }
    }
}
