//! Which number has which name: a text file beside a book, with a line `NUMBER NAME` for each.
use crate::name::Name;
use std::collections::BTreeMap;

/// The names of a book's records.
#[derive(Clone, Debug, Default, PartialEq, Eq)]
pub struct Names {
    names: BTreeMap<u16, Name>,
}

/// Why a file of names cannot be used.
#[derive(Clone, Debug, PartialEq, Eq)]
pub struct BadNames {
    /// The line, counted from 1.
    pub line: usize,
    /// What is wrong.
    pub why: &'static str,
}

impl Names {
    /// Reads a file of names.
    ///
    /// # Errors
    /// A line is no number and name, or repeats one.
    pub fn read(text: &[u8]) -> Result<Names, BadNames> {
        let mut names = Names::default();
        for (at, line) in text.split(|&byte| byte == b'\n').enumerate() {
            if line.is_empty() {
                continue;
            }
            let wrong = |why| BadNames { line: at + 1, why };
            let (number, name) = entry(line).ok_or(wrong("is no number and name"))?;
            if names.number(&name).is_some() || names.names.insert(number, name).is_some() {
                return Err(wrong("repeats a number or a name"));
            }
        }
        Ok(names)
    }

    /// Returns the file of names.
    #[must_use]
    pub fn text(&self) -> String {
        let mut text = String::new();
        for (number, name) in &self.names {
            text += &format!(
                "{number} {name}
"
            );
        }
        text
    }

    /// Returns the number of a name.
    #[must_use]
    pub fn number(&self, name: &Name) -> Option<u16> {
        let mut found = self.names.iter().filter(|(_, other)| *other == name);
        found.next().map(|(&number, _)| number)
    }

    /// Returns the name of a number.
    #[must_use]
    pub fn name(&self, number: u16) -> Option<&Name> {
        self.names.get(&number)
    }

    /// Gives a name the first free number. Nothing if all are taken.
    pub fn add(&mut self, name: &Name) -> Option<u16> {
        let free = (0..=u16::MAX).find(|number| !self.names.contains_key(number))?;
        self.names.insert(free, name.clone());
        Some(free)
    }

    /// Returns all names.
    pub fn all(&self) -> impl Iterator<Item = &Name> {
        self.names.values()
    }
}

fn entry(line: &[u8]) -> Option<(u16, Name)> {
    let (number, name) = str::from_utf8(line).ok()?.split_once(' ')?;
    Some((number.parse().ok()?, Name::read(name).ok()?))
}

#[cfg(test)]
#[allow(clippy::panic)]
mod tests {
    use super::*;

    #[test]
    fn what_is_written_is_read() {
        let mut names = Names::default();
        for (number, word) in ["bed", "Wäschekammer", "wall_2"].iter().enumerate() {
            let Ok(name) = Name::read(word) else {
                panic!("{word} is a name");
            };
            assert_eq!(names.add(&name).map(usize::from), Some(number));
            assert_eq!(names.number(&name).map(usize::from), Some(number));
        }
        assert_eq!(Names::read(names.text().as_bytes()), Ok(names));
    }

    #[test]
    fn other_lines_are_refused() {
        for (text, line) in [
            ("1\n", 1),
            ("1 bed\nx wall\n", 2),
            ("65536 bed\n", 1),
            ("1 bed\n2 bed\n", 2),
            ("1 bed\n1 wall\n", 2),
            ("1 no name\n", 1),
        ] {
            assert_eq!(
                Names::read(text.as_bytes()).map_err(|bad| bad.line),
                Err(line),
                "{text}"
            );
        }
    }
}
