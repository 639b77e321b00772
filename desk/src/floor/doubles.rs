//! What a careful reader of a map would ask about: obstacles that overlap or are equal, and names that differ only in
//! case. Going through all pairs is a loop of the desk's own over the library's `relation`.
use super::{Floor, floors};
use crate::answer::Refused;
use crate::given::{Given, Pair};
use crate::map::Map;
use crate::name::Name;
use crate::question::{OfTwo, Question};
use cocklesway::Relation;
use std::collections::HashMap;

/// Two shapes that are remarkable together.
#[derive(Clone, Debug, PartialEq, Eq)]
pub struct Double {
    /// What they are.
    pub kind: Kind,
    /// The shapes' names.
    pub names: [Name; 2],
    /// Their floor, where it matters.
    pub floor: Option<u16>,
}

/// What two shapes are together.
#[derive(Clone, Copy, Debug, PartialEq, Eq)]
pub enum Kind {
    /// They overlap.
    Overlapping,
    /// They have the same corners.
    Equal,
    /// Their names differ only in case.
    Case,
}

/// Returns the obstacles that overlap or are equal, floor by floor. After each shape it says how many pairs of how many
/// were asked.
///
/// # Errors
/// The library's refusal of a pair.
pub fn overlapping(map: &Map, mut tick: impl FnMut(usize, usize)) -> Result<Vec<Double>, Refused> {
    let floors: Result<Vec<Floor>, Refused> = floors(map)
        .into_iter()
        .map(|number| Floor::of(map, number, None))
        .collect();
    let floors = floors?;
    let pairs = |count: usize| count * count.saturating_sub(1) / 2;
    let all = floors.iter().map(|floor| pairs(floor.shapes.len())).sum();
    let (mut found, mut asked) = (Vec::new(), 0);
    for floor in &floors {
        for (position, a) in floor.shapes.iter().enumerate() {
            for b in floor.shapes.iter().skip(position + 1) {
                found.extend(double(floor.number, a, b)?);
                asked += 1;
            }
            tick(asked, all);
        }
    }
    Ok(found)
}

/// What is remarkable of two shapes.
fn double(floor: u16, a: &Given, b: &Given) -> Result<Option<Double>, Refused> {
    let names = a.name.clone().zip(b.name.clone());
    Ok(kind_of(a, b)?.zip(names).map(|(kind, (a, b))| Double {
        kind,
        names: [a, b],
        floor: Some(floor),
    }))
}

/// Equal shapes are one list, since a shape has one standard list.
fn kind_of(a: &Given, b: &Given) -> Result<Option<Kind>, Refused> {
    if a.numbers == b.numbers {
        return Ok(Some(Kind::Equal));
    }
    let found = cocklesway::relation(a.alone(), b.alone()).map_err(|refusal| {
        let (a, b) = (a.clone(), b.clone());
        Refused::new(Question::Two(Pair { a, b }, OfTwo::Relation), refusal)
    })?;
    Ok((found.relation == Relation::Overlapping).then_some(Kind::Overlapping))
}

/// Returns the names that differ only in case, each with the first such name before it.
#[must_use]
pub fn alike(map: &Map) -> Vec<Double> {
    let mut first: HashMap<String, &Name> = HashMap::new();
    let mut found = Vec::new();
    for item in map.items() {
        let small = item.name.as_str().to_lowercase();
        match first.get(&small) {
            Some(&other) => found.push(Double {
                kind: Kind::Case,
                names: [other.clone(), item.name.clone()],
                floor: None,
            }),
            None => drop(first.insert(small, &item.name)),
        }
    }
    found
}

impl Double {
    /// Returns it in words.
    #[must_use]
    pub fn sentence(&self) -> String {
        let [a, b] = &self.names;
        let floor = self
            .floor
            .map_or(String::new(), |floor| format!(" on floor {floor}"));
        match self.kind {
            Kind::Overlapping => format!("{a} and {b} overlap{floor}"),
            Kind::Equal => format!("{a} and {b} are the same shape{floor}"),
            Kind::Case => format!("the names {a} and {b} differ only in case"),
        }
    }

    /// Returns the word for it.
    #[must_use]
    pub fn word(&self) -> &'static str {
        match self.kind {
            Kind::Overlapping => "overlapping",
            Kind::Equal => "equal",
            Kind::Case => "case",
        }
    }
}
