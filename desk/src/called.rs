//! What sentences call shapes, and the places where two of them are nearest.
use crate::distance::Distance;
use crate::given::Given;
use cocklesway::{Across, Nearest};

/// A shape, and what a sentence calls it.
pub struct Called<'a> {
    /// The shape.
    pub shape: &'a Given,
    /// What it is called.
    pub label: String,
}

impl<'a> Called<'a> {
    /// Returns a shape by its own name, or by what it looks like.
    #[must_use]
    pub fn own(shape: &'a Given) -> Called<'a> {
        let label = shape.to_string();
        Called { shape, label }
    }

    /// Returns the words for an edge.
    #[must_use]
    pub fn edge(&self, position: usize) -> String {
        format!("edge {} of {}", self.shape.edge(position), self.label)
    }

    /// Returns the words for a corner. Of a point it is the point itself; one without a name is called by its place.
    #[must_use]
    pub fn corner(&self, position: usize) -> String {
        let (corner, label) = (self.shape.corner(position), &self.label);
        match self.shape.corners() {
            [_] if label.ends_with(&corner.to_string()) => label.clone(),
            [_] => format!("{label} at {corner}"),
            _ => format!("corner {corner} of {label}"),
        }
    }
}

/// Returns how near two shapes are, and between which corners and edges.
#[must_use]
pub fn between([a, b]: [&Called<'_>; 2], found: Nearest) -> (Distance, String) {
    match found {
        Nearest::Corners {
            first,
            second,
            squared,
            ..
        } => {
            let places = format!("{} and {}", a.corner(first), b.corner(second));
            (Distance::of_square(squared), places)
        }
        Nearest::CornerEdge(across) => across_edge(a, b, across),
        Nearest::EdgeCorner(across) => across_edge(b, a, across),
    }
}

/// Between a corner of the one and an edge of the other.
fn across_edge(
    with_corner: &Called<'_>,
    with_edge: &Called<'_>,
    across: Across,
) -> (Distance, String) {
    let distance = Distance::of_turn(across.turn, across.squared, across.rounded);
    let (corner, edge) = (
        with_corner.corner(across.corner),
        with_edge.edge(across.edge),
    );
    (distance, format!("{corner} and {edge}"))
}
