//! What a cart meets at a place. That it is free is one answer of the library on the whole floor; which obstacles it
//! meets is a loop of the desk's own over the library's answers on two shapes.
use super::Floor;
use crate::answer::{Refused, made, relation};
use crate::called::{Called, between};
use crate::given::{Corner, Given, Pair};
use crate::question::Making;
use cocklesway::{Nearest, Relation};

/// A cart at a place.
#[derive(Clone, Debug, PartialEq)]
pub struct Stand {
    /// The cart there.
    pub there: Given,
    /// What sentences call it.
    pub label: String,
    /// The obstacles that it meets, and how.
    pub met: Vec<(usize, Relation)>,
    /// The obstacle that is nearest, and where; nothing for the place if it is met.
    pub nearest: (usize, Option<Nearest>),
}

/// Returns what sentences call a cart at a place.
#[must_use]
pub fn label_at(cart: &Given, at: [i32; 2]) -> String {
    format!("{cart} at {}", Corner(at))
}

/// Returns a cart at a place of a floor, without a name.
///
/// # Errors
/// It would reach out of range.
pub fn placed(floor: &Floor, cart: &Given, at: [i32; 2]) -> Result<Given, Refused> {
    let (a, b) = (floor.here(cart), floor.place(at));
    made(Making::At(Pair { a, b }))
}

/// Puts a cart at a place of a floor, and asks what it meets there.
///
/// # Errors
/// The library's refusal: 20 if the floor has no obstacle.
pub fn stand(floor: &Floor, cart: &Given, at: [i32; 2]) -> Result<Stand, Refused> {
    let there = placed(floor, cart, at)?;
    let nearest = floor.nearest(&there, None)?;
    // A shape that is apart from the nearest is apart from all.
    let met = match nearest {
        (_, Some(_)) => Vec::new(),
        (_, None) => met_by(floor, &there)?,
    };
    Ok(Stand {
        there,
        label: label_at(cart, at),
        met,
        nearest,
    })
}

/// The obstacles that a shape touches or overlaps.
fn met_by(floor: &Floor, shape: &Given) -> Result<Vec<(usize, Relation)>, Refused> {
    let mut met = Vec::new();
    for (position, obstacle) in floor.shapes.iter().enumerate() {
        let (a, b) = (shape.clone(), obstacle.clone());
        match relation(&Pair { a, b })? {
            Relation::Apart => {}
            found => met.push((position, found)),
        }
    }
    Ok(met)
}

impl Stand {
    /// Returns how the cart is at its place: the worst that it does to an obstacle.
    #[must_use]
    pub fn state(&self) -> &'static str {
        let overlaps = |(_, found): &(usize, Relation)| *found == Relation::Overlapping;
        match self.met.as_slice() {
            [] => "free",
            met if met.iter().any(overlaps) => "overlapping",
            _ => "touching",
        }
    }

    /// Returns the obstacles that are met so.
    pub fn met_so(&self, relation: Relation) -> impl Iterator<Item = usize> {
        let met = self.met.iter().filter(move |(_, found)| *found == relation);
        met.map(|(position, _)| *position)
    }

    /// Returns what the cart meets, in words.
    #[must_use]
    pub fn sentence(&self, floor: &Floor) -> String {
        let (label, number) = (&self.label, floor.number);
        if let (position, Some(nearest)) = self.nearest
            && let Some(near) = floor.shape(position)
        {
            let called = Called {
                shape: &self.there,
                label: label.clone(),
            };
            let (distance, places) = between([&called, &Called::own(near)], nearest);
            return format!(
                "{label} is free on floor {number}; the nearest is {near}: {distance}, between {places}"
            );
        }
        let names = |relation| -> Vec<String> {
            let shapes = self.met_so(relation).filter_map(|at| floor.shape(at));
            shapes.map(Given::to_string).collect()
        };
        let said = |verb: &str, names: Vec<String>| match names.as_slice() {
            [] => None,
            [one] => Some(format!("{verb} {one}")),
            [first @ .., last] => Some(format!("{verb} {} and {last}", first.join(", "))),
        };
        let touched = said("touches", names(Relation::Touching));
        let overlapped = said("overlaps", names(Relation::Overlapping));
        let all: Vec<String> = [overlapped, touched].into_iter().flatten().collect();
        format!("{label} on floor {number} {}", all.join("; it "))
    }
}
