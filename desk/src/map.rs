//! The shapes of a map by their names.
use crate::given::Given;
use crate::name::{Name, most_like};
use crate::place::Place;
use crate::question::Making;
use std::collections::HashMap;

/// Where a shape comes from.
#[derive(Clone, Debug, PartialEq, Eq)]
pub enum Origin {
    /// It was written down: a shape on a floor, or an outline.
    Written,
    /// It is what this question answered.
    Made(Making),
}

/// What is known of a name.
#[derive(Clone, Debug, PartialEq, Eq)]
pub enum Entry {
    /// The name has a shape, which the library has accepted.
    Shape {
        /// The shape, which has the name.
        shape: Given,
        /// Where it comes from.
        origin: Origin,
    },
    /// Its definition was refused or could not be read.
    Removed,
}

/// A name, and where it was defined last.
#[derive(Clone, Debug, PartialEq, Eq)]
pub struct Item {
    /// The name.
    pub name: Name,
    /// Where it was defined last, or removed.
    pub place: Place,
    /// What is known of it.
    pub entry: Entry,
}

/// Names and their shapes, in the order in which they were first defined.
#[derive(Clone, Debug, Default)]
pub struct Map {
    items: Vec<Item>,
    positions: HashMap<Name, usize>,
}

impl Map {
    /// Returns what is known of a name.
    #[must_use]
    pub fn get(&self, name: &Name) -> Option<&Item> {
        self.positions.get(name).and_then(|&at| self.items.get(at))
    }

    /// Sets what is known of a name, and returns what was known before.
    pub fn set(&mut self, name: Name, place: Place, entry: Entry) -> Option<Item> {
        let item = Item {
            name: name.clone(),
            place,
            entry,
        };
        let known = self.positions.get(&name);
        if let Some(known) = known.and_then(|&at| self.items.get_mut(at)) {
            return Some(std::mem::replace(known, item));
        }
        self.positions.insert(name, self.items.len());
        self.items.push(item);
        None
    }

    /// Returns all names, removed ones too.
    pub fn items(&self) -> impl Iterator<Item = &Item> {
        self.items.iter()
    }

    /// Returns all shapes, with where they come from.
    pub fn shapes(&self) -> impl Iterator<Item = (&Given, &Origin)> {
        self.items.iter().filter_map(|item| match &item.entry {
            Entry::Shape { shape, origin } => Some((shape, origin)),
            Entry::Removed => None,
        })
    }

    /// Returns the name that is most like a word, if one is much like it.
    #[must_use]
    pub fn like(&self, word: &str) -> Option<Name> {
        let known = self.items.iter().map(|item| item.name.as_str());
        most_like(word, known).and_then(|like| Name::read(like).ok())
    }
}
