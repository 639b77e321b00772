//! Shapes as they are given: written out in a line, or by a name of the map.
use crate::name::Name;
use cocklesway::Shape;
use std::fmt;
use std::sync::Arc;

/// A list of numbers, x and y by turns, and the floor. Nothing is known of the list until the library has judged it.
#[derive(Clone, Debug, PartialEq, Eq)]
pub struct Given {
    /// The name it was given by.
    pub name: Option<Name>,
    /// Its numbers.
    pub numbers: Arc<[i32]>,
    /// Its floor. An outline has none and takes that of the question.
    pub floor: Option<u16>,
}

/// Two shapes of a question.
#[derive(Clone, Debug, PartialEq, Eq)]
pub struct Pair {
    /// The one that is given first.
    pub a: Given,
    /// The other.
    pub b: Given,
}

/// Two obstacles, and the cart that is to pass between them.
#[derive(Clone, Debug, PartialEq, Eq)]
pub struct Trio {
    /// The obstacle on the left.
    pub left: Given,
    /// The one on the right.
    pub right: Given,
    /// The cart's outline.
    pub cart: Given,
}

/// A point of the floor, in millimetres.
#[derive(Clone, Copy, Debug, PartialEq, Eq, Hash)]
pub struct Corner(pub [i32; 2]);

/// An edge, by its two ends.
#[derive(Clone, Copy, Debug, PartialEq, Eq, Hash)]
pub struct Edge(pub Corner, pub Corner);

impl Given {
    /// Returns its corners; none for an odd count of numbers.
    #[must_use]
    pub fn corners(&self) -> &[[i32; 2]] {
        Shape::of_numbers(&self.numbers, 0).corners
    }

    /// Lends it to the library, on a floor if it has none.
    #[must_use]
    pub fn on(&self, floor: u16) -> Shape<'_> {
        Shape::of_numbers(&self.numbers, self.floor.unwrap_or(floor).into())
    }

    /// Lends it to the library. An outline is on floor 0, which its answers leave out.
    #[must_use]
    pub fn alone(&self) -> Shape<'_> {
        self.on(0)
    }

    /// Returns a corner by its position, counted round the shape.
    #[must_use]
    pub fn corner(&self, position: usize) -> Corner {
        let corners = self.corners();
        let at = position.checked_rem(corners.len()).unwrap_or(0);
        Corner(corners.get(at).copied().unwrap_or_default())
    }

    /// Returns the edge that leaves a corner.
    #[must_use]
    pub fn edge(&self, position: usize) -> Edge {
        Edge(self.corner(position), self.corner(position + 1))
    }
}

impl Pair {
    /// Returns the floor that an outline takes; nothing for two outlines.
    #[must_use]
    pub fn floor(&self) -> Option<u16> {
        self.a.floor.or(self.b.floor)
    }

    /// Lends both to the library.
    #[must_use]
    pub fn lent(&self) -> (Shape<'_>, Shape<'_>) {
        let floor = self.floor().unwrap_or(0);
        (self.a.on(floor), self.b.on(floor))
    }
}

impl Trio {
    /// Returns the floor that an outline takes; nothing for three outlines.
    #[must_use]
    pub fn floor(&self) -> Option<u16> {
        let Trio { left, right, cart } = self;
        left.floor.or(right.floor).or(cart.floor)
    }

    /// Lends all three to the library.
    #[must_use]
    pub fn lent(&self) -> [Shape<'_>; 3] {
        let floor = self.floor().unwrap_or(0);
        self.shapes().map(|shape| shape.on(floor))
    }

    /// Returns all three, in order.
    #[must_use]
    pub fn shapes(&self) -> [&Given; 3] {
        [&self.left, &self.right, &self.cart]
    }

    /// Returns each obstacle with the cart that it is grown by, in order.
    #[must_use]
    pub fn grown(&self) -> [Pair; 2] {
        [&self.left, &self.right].map(|obstacle| Pair {
            a: obstacle.clone(),
            b: self.cart.clone(),
        })
    }
}

impl Edge {
    /// Returns the square of its length, in square millimetres.
    #[must_use]
    pub fn squared(&self) -> u64 {
        let Edge(Corner([x, y]), Corner([u, v])) = *self;
        let parts = [x.abs_diff(u), y.abs_diff(v)].map(u64::from);
        parts
            .into_iter()
            .fold(0, |sum, part| sum.saturating_add(part * part))
    }
}

impl fmt::Display for Corner {
    fn fmt(&self, f: &mut fmt::Formatter<'_>) -> fmt::Result {
        let Corner([x, y]) = self;
        write!(f, "({x}, {y})")
    }
}

impl fmt::Display for Edge {
    fn fmt(&self, f: &mut fmt::Formatter<'_>) -> fmt::Result {
        write!(f, "{} to {}", self.0, self.1)
    }
}

/// What sentences call it: its name, or what it looks like.
impl fmt::Display for Given {
    fn fmt(&self, f: &mut fmt::Formatter<'_>) -> fmt::Result {
        if let Some(name) = &self.name {
            return write!(f, "{name}");
        }
        match self.corners() {
            [] => f.write_str("the list"),
            [point] => write!(f, "the point {}", Corner(*point)),
            [from, to] => write!(f, "the segment {}", Edge(Corner(*from), Corner(*to))),
            [first, ..] => {
                let count = self.corners().len();
                write!(f, "the shape of {count} corners from {}", Corner(*first))
            }
        }
    }
}
