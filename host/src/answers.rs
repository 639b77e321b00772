//! What the questions answer. Every answer on shapes carries their floor. Positions count from 0.
use crate::reply::{narrow, position};

/// How many corners a shape has.
///
/// ```
/// use cocklesway::{Shape, judge};
///
/// let answer = judge(Shape::new(&[[0, 0], [4, 0]], 7))?;
/// assert_eq!((answer.count, answer.floor), (2, 7));
/// # Ok::<(), cocklesway::Refusal>(())
/// ```
#[derive(Clone, Copy, Debug, PartialEq, Eq, Hash)]
#[non_exhaustive]
#[must_use]
pub struct Corners {
    /// How many corners it has.
    pub count: usize,
    /// The floor.
    pub floor: u32,
}

/// The corners that are furthest in a direction: one, or two neighbours.
///
/// ```
/// use cocklesway::{Shape, furthest};
///
/// let answer = furthest(Shape::new(&[[0, 0], [2, 0], [2, 2], [0, 2]], 0), [1, 0])?;
/// assert_eq!((answer.first, answer.last, answer.value), (1, 2, 2));
/// # Ok::<(), cocklesway::Refusal>(())
/// ```
#[derive(Clone, Copy, Debug, PartialEq, Eq, Hash)]
#[non_exhaustive]
#[must_use]
pub struct Furthest {
    /// The first of them, counterclockwise.
    pub first: usize,
    /// The last of them; the first again if there is one only.
    pub last: usize,
    /// Their value u·x + v·y.
    pub value: i64,
    /// The floor.
    pub floor: u32,
}

/// The two corners that are furthest apart.
///
/// ```
/// use cocklesway::{Shape, length};
///
/// let answer = length(Shape::new(&[[0, 0], [4, 0], [0, 3]], 0))?;
/// assert_eq!((answer.squared, answer.from, answer.to), (25, 1, 2));
/// # Ok::<(), cocklesway::Refusal>(())
/// ```
#[derive(Clone, Copy, Debug, PartialEq, Eq, Hash)]
#[non_exhaustive]
#[must_use]
pub struct Length {
    /// Their squared distance, in square millimetres.
    pub squared: u64,
    /// The position of the one.
    pub from: usize,
    /// The position of the other.
    pub to: usize,
    /// The floor.
    pub floor: u32,
}

/// The area of a shape.
///
/// ```
/// use cocklesway::{Shape, area};
///
/// let triangle = area(Shape::new(&[[0, 0], [1, 0], [0, 1]], 0))?;
/// assert_eq!((triangle.twice, triangle.floor), (1, 0));
/// # Ok::<(), cocklesway::Refusal>(())
/// ```
#[derive(Clone, Copy, Debug, PartialEq, Eq, Hash)]
#[non_exhaustive]
#[must_use]
pub struct Area {
    /// Twice the area, in square millimetres: a whole number, while the area may end in a half.
    pub twice: u64,
    /// The floor.
    pub floor: u32,
}

/// Where a shape is narrowest: across an edge, to the corner furthest from it. The width is t/√q.
///
/// ```
/// use cocklesway::{Shape, width};
///
/// let answer = width(Shape::new(&[[0, 0], [4, 0], [0, 3]], 0))?;
/// assert_eq!((answer.edge, answer.corner), (1, 0));
/// assert_eq!((answer.turn, answer.squared, answer.rounded), (12, 25, 2));
/// # Ok::<(), cocklesway::Refusal>(())
/// ```
#[derive(Clone, Copy, Debug, PartialEq, Eq, Hash)]
#[non_exhaustive]
#[must_use]
pub struct Width {
    /// The position of the edge's first corner.
    pub edge: usize,
    /// The position of the corner.
    pub corner: usize,
    /// t: the turn of the corner against the edge, in square millimetres.
    pub turn: u64,
    /// q: the squared length of the edge, in square millimetres.
    pub squared: u64,
    /// The width, rounded down to whole millimetres.
    pub rounded: u64,
    /// The floor.
    pub floor: u32,
}

/// The least box about a shape: of the boxes that lie along an edge, the one with the least perimeter. Its sides are
/// T/√q across the edge and S/√q along it.
///
/// ```
/// use cocklesway::{Shape, least_box};
///
/// let answer = least_box(Shape::new(&[[0, 0], [4, 0], [0, 3]], 0))?;
/// assert_eq!((answer.edge, answer.squared), (0, 16));
/// assert_eq!((answer.height / 4, answer.along / 4), (3, 4));
/// # Ok::<(), cocklesway::Refusal>(())
/// ```
#[derive(Clone, Copy, Debug, PartialEq, Eq, Hash)]
#[non_exhaustive]
#[must_use]
pub struct LeastBox {
    /// The position of the edge's first corner.
    pub edge: usize,
    /// T: the greatest turn of a corner against the edge, in square millimetres.
    pub height: u64,
    /// S: the spread of the corners along the edge, times the edge's length, in square millimetres.
    pub along: u64,
    /// q: the squared length of the edge, in square millimetres.
    pub squared: u64,
    /// The floor.
    pub floor: u32,
}

/// How two shapes relate to each other.
///
/// ```
/// use cocklesway::{Relation, Shape, relation};
///
/// let square = Shape::new(&[[0, 0], [2, 0], [2, 2], [0, 2]], 9);
/// let answer = relation(square, Shape::new(&[[2, 1]], 9))?;
/// assert_eq!((answer.relation, answer.floor), (Relation::Touching, 9));
/// # Ok::<(), cocklesway::Refusal>(())
/// ```
#[derive(Clone, Copy, Debug, PartialEq, Eq, Hash)]
#[non_exhaustive]
#[must_use]
pub struct Standing {
    /// Apart, touching or overlapping.
    pub relation: Relation,
    /// The floor.
    pub floor: u32,
}

/// Apart, touching or overlapping. There is no fourth case.
///
/// ```
/// use cocklesway::{Relation, Shape, relation};
///
/// let may_pass = |cart: Shape<'_>, wall: Shape<'_>| {
///     Ok::<bool, cocklesway::Refusal>(match relation(cart, wall)?.relation {
///         Relation::Apart => true,
///         Relation::Touching | Relation::Overlapping => false,
///     })
/// };
/// // Segments in line that have a point in common touch.
/// let (one, other) = ([[0, 0], [4, 0]], [[2, 0], [6, 0]]);
/// assert!(!may_pass(Shape::new(&one, 0), Shape::new(&other, 0))?);
/// # Ok::<(), cocklesway::Refusal>(())
/// ```
#[derive(Clone, Copy, Debug, PartialEq, Eq, Hash)]
#[must_use]
pub enum Relation {
    /// They have no point in common.
    Apart,
    /// They have a point in common, and there is a line that has the one on or to the left of it and the other on
    /// or to the right.
    Touching,
    /// They have a point in common, and there is no such line.
    Overlapping,
}

impl Relation {
    /// 0 apart, 1 touching, 2 overlapping.
    pub(crate) fn of(number: u64) -> Relation {
        match number {
            0 => Relation::Apart,
            1 => Relation::Touching,
            _ => Relation::Overlapping,
        }
    }
}

/// Whether the first shape is inside the second.
///
/// ```
/// use cocklesway::{Shape, inside};
///
/// let square = Shape::new(&[[0, 0], [2, 0], [2, 2], [0, 2]], 0);
/// assert!(inside(Shape::new(&[[0, 0], [1, 0], [0, 1]], 0), square)?.within);
/// # Ok::<(), cocklesway::Refusal>(())
/// ```
#[derive(Clone, Copy, Debug, PartialEq, Eq, Hash)]
#[non_exhaustive]
#[must_use]
pub struct Inside {
    /// Whether it is. A point of the rim is inside.
    pub within: bool,
    /// The floor.
    pub floor: u32,
}

/// Whether a direction is accepted as the reason that two shapes are apart.
///
/// ```
/// use cocklesway::{Shape, offer};
///
/// let square = Shape::new(&[[0, 0], [2, 0], [2, 2], [0, 2]], 0);
/// assert!(offer(square, Shape::new(&[[3, 1]], 0), [1, 0])?.accepted);
/// # Ok::<(), cocklesway::Refusal>(())
/// ```
#[derive(Clone, Copy, Debug, PartialEq, Eq, Hash)]
#[non_exhaustive]
#[must_use]
pub struct Offer {
    /// Whether it is. The shapes are apart then.
    pub accepted: bool,
    /// The floor.
    pub floor: u32,
}

/// A direction that is accepted as the reason that two shapes are apart.
///
/// ```
/// use cocklesway::{Shape, find};
///
/// let square = Shape::new(&[[0, 0], [2, 0], [2, 2], [0, 2]], 0);
/// assert_eq!(find(square, Shape::new(&[[2, 1]], 0))?.direction, None);
/// # Ok::<(), cocklesway::Refusal>(())
/// ```
#[derive(Clone, Copy, Debug, PartialEq, Eq, Hash)]
#[non_exhaustive]
#[must_use]
pub struct Separator {
    /// The direction, or nothing if the shapes are not apart.
    pub direction: Option<[i32; 2]>,
    /// The floor.
    pub floor: u32,
}

/// How near two shapes are.
///
/// ```
/// use cocklesway::{Shape, clearance};
///
/// let answer = clearance(Shape::new(&[[0, 0]], 0), Shape::new(&[[3, 4]], 0))?;
/// assert_eq!(answer.rounded(), 5);
/// assert_eq!(clearance(Shape::new(&[[0, 0]], 0), Shape::new(&[[0, 0]], 0))?.nearest, None);
/// # Ok::<(), cocklesway::Refusal>(())
/// ```
#[derive(Clone, Copy, Debug, PartialEq, Eq, Hash)]
#[non_exhaustive]
#[must_use]
pub struct Clearance {
    /// Where they are nearest, or nothing if they are not apart.
    pub nearest: Option<Nearest>,
    /// The floor.
    pub floor: u32,
}

impl Clearance {
    /// Returns the distance rounded down to whole millimetres; 0 if the shapes are not apart.
    ///
    /// ```
    /// use cocklesway::{Shape, clearance};
    ///
    /// let wall = Shape::new(&[[-3000, 0], [3000, 0]], 0);
    /// assert_eq!(clearance(Shape::new(&[[0, 40]], 0), wall)?.rounded(), 40);
    /// # Ok::<(), cocklesway::Refusal>(())
    /// ```
    #[must_use]
    pub const fn rounded(self) -> u64 {
        rounded(self.nearest)
    }
}

const fn rounded(nearest: Option<Nearest>) -> u64 {
    match nearest {
        None => 0,
        Some(Nearest::Corners { rounded, .. }) => rounded,
        Some(Nearest::CornerEdge(across) | Nearest::EdgeCorner(across)) => across.rounded,
    }
}

/// Where two shapes are nearest. There is no fourth case.
///
/// ```
/// use cocklesway::{Nearest, Shape, clearance};
///
/// let (wall, place) = (Shape::new(&[[-3000, 0], [3000, 0]], 0), Shape::new(&[[0, 40]], 0));
/// assert!(matches!(clearance(place, wall)?.nearest, Some(Nearest::CornerEdge(_))));
/// assert!(matches!(clearance(wall, place)?.nearest, Some(Nearest::EdgeCorner(_))));
/// # Ok::<(), cocklesway::Refusal>(())
/// ```
#[derive(Clone, Copy, Debug, PartialEq, Eq, Hash)]
pub enum Nearest {
    /// At two corners.
    Corners {
        /// The position in the first shape.
        first: usize,
        /// The position in the second.
        second: usize,
        /// Their squared distance, in square millimetres.
        squared: u64,
        /// Their distance, rounded down to whole millimetres.
        rounded: u64,
    },
    /// At a corner of the first shape, and inside an edge of the second.
    CornerEdge(Across),
    /// At a corner of the second shape, and inside an edge of the first.
    EdgeCorner(Across),
}

/// A corner of one shape and an edge of another. Their distance is t/√q.
///
/// ```
/// use cocklesway::{Nearest, Shape, clearance};
///
/// let (wall, place) = (Shape::new(&[[-3000, 0], [3000, 0]], 0), Shape::new(&[[0, 40]], 0));
/// let Some(Nearest::CornerEdge(across)) = clearance(place, wall)?.nearest else {
///     unreachable!("the place is beside the wall");
/// };
/// assert_eq!((across.corner, across.edge), (0, 0));
/// assert_eq!((across.turn, across.squared, across.rounded), (240_000, 36_000_000, 40));
/// # Ok::<(), cocklesway::Refusal>(())
/// ```
#[derive(Clone, Copy, Debug, PartialEq, Eq, Hash)]
#[non_exhaustive]
pub struct Across {
    /// The position of the corner.
    pub corner: usize,
    /// The position of the edge's first corner.
    pub edge: usize,
    /// t: the size of the corner's turn against the edge, in square millimetres.
    pub turn: u64,
    /// q: the squared length of the edge, in square millimetres.
    pub squared: u64,
    /// The distance, rounded down to whole millimetres.
    pub rounded: u64,
}

impl Nearest {
    /// The kind and its numbers, as the archive answers them, with the floor: 0 not apart, 1 two corners, 2 a corner
    /// of the first and an edge of the second, 3 a corner of the second and an edge of the first.
    #[inline]
    pub(crate) fn of(values: [u64; 7]) -> (Option<Nearest>, u32) {
        let (nearest, floor) = match values {
            [0, floor, ..] => (None, floor),
            [1, first, second, squared, rounded, floor, ..] => {
                let corners = Nearest::Corners {
                    first: position(first),
                    second: position(second),
                    squared,
                    rounded,
                };
                (Some(corners), floor)
            }
            [kind, corner, edge, turn, squared, rounded, floor] => {
                let across = Across {
                    corner: position(corner),
                    edge: position(edge),
                    turn,
                    squared,
                    rounded,
                };
                let nearest = match kind {
                    2 => Nearest::CornerEdge(across),
                    _ => Nearest::EdgeCorner(across),
                };
                (Some(nearest), floor)
            }
        };
        (nearest, narrow(floor))
    }
}

/// How far a point of one shape can be from a point of another.
///
/// ```
/// use cocklesway::{Shape, greatest};
///
/// let answer = greatest(Shape::new(&[[0, 0], [1, 0]], 3), Shape::new(&[[4, 4]], 3))?;
/// assert_eq!((answer.squared, answer.first, answer.second), (32, 0, 0));
/// # Ok::<(), cocklesway::Refusal>(())
/// ```
#[derive(Clone, Copy, Debug, PartialEq, Eq, Hash)]
#[non_exhaustive]
#[must_use]
pub struct Greatest {
    /// The squared distance of the two corners that are furthest apart, in square millimetres.
    pub squared: u64,
    /// The position in the first shape.
    pub first: usize,
    /// The position in the second.
    pub second: usize,
    /// The floor.
    pub floor: u32,
}

/// The shape of a floor that is nearest to another shape.
///
/// ```
/// use cocklesway::{Addition, Book, Shape};
///
/// let mut bytes = [0; 64];
/// let mut book = Book::new(&mut bytes);
/// for (name, x) in [(7, 30), (8, 4)] {
///     assert_eq!(book.add(name, Shape::new(&[[x, 0]], 3), usize::MAX), Ok(Addition::Finished));
/// }
/// let answer = book.nearest(Shape::new(&[[0, 3]], 3), None)?;
/// assert_eq!((answer.name, answer.rounded(), answer.floor), (8, 5, 3));
/// assert_eq!(book.nearest(Shape::new(&[[4, 0]], 3), None)?.nearest, None);
/// # Ok::<(), cocklesway::Refusal>(())
/// ```
#[derive(Clone, Copy, Debug, PartialEq, Eq, Hash)]
#[non_exhaustive]
#[must_use]
pub struct Neighbour {
    /// Its name.
    pub name: u16,
    /// Where the two are nearest, the asked shape first, or nothing if they meet.
    pub nearest: Option<Nearest>,
    /// The floor.
    pub floor: u32,
}

impl Neighbour {
    /// Returns the distance rounded down to whole millimetres; 0 if the shapes meet.
    ///
    /// ```
    /// use cocklesway::{Addition, Book, Shape};
    ///
    /// let mut bytes = [0; 32];
    /// let mut book = Book::new(&mut bytes);
    /// assert_eq!(book.add(7, Shape::new(&[[3, 4]], 0), usize::MAX), Ok(Addition::Finished));
    /// assert_eq!(book.nearest(Shape::new(&[[0, 0]], 0), None)?.rounded(), 5);
    /// # Ok::<(), cocklesway::Refusal>(())
    /// ```
    #[must_use]
    pub const fn rounded(self) -> u64 {
        rounded(self.nearest)
    }
}

/// The narrowest gap between two shapes of a floor, both grown by a cart.
///
/// ```
/// use cocklesway::{Addition, Book, Shape};
///
/// let mut bytes = [0; 64];
/// let mut book = Book::new(&mut bytes);
/// for (name, x) in [(1, 0), (2, 5), (3, 9)] {
///     assert_eq!(book.add(name, Shape::new(&[[x, 0]], 3), usize::MAX), Ok(Addition::Finished));
/// }
/// let answer = book.gap(Shape::new(&[[0, 0]], 3))?;
/// assert_eq!((answer.names, answer.rounded(), answer.floor), ([2, 3], 4, 3));
///
/// // A cart of 4 mm would touch both.
/// assert_eq!(book.gap(Shape::new(&[[0, 0], [4, 0]], 3))?.nearest, None);
/// # Ok::<(), cocklesway::Refusal>(())
/// ```
#[derive(Clone, Copy, Debug, PartialEq, Eq, Hash)]
#[non_exhaustive]
#[must_use]
pub struct Gap {
    /// The names of the two, in the order of the log.
    pub names: [u16; 2],
    /// Where the grown shapes are nearest, or nothing if they meet. Positions count in the grown shapes.
    pub nearest: Option<Nearest>,
    /// The floor.
    pub floor: u32,
}

impl Gap {
    /// Returns the gap rounded down to whole millimetres; 0 if the grown shapes meet.
    ///
    /// ```
    /// use cocklesway::{Addition, Book, Shape};
    ///
    /// let mut bytes = [0; 64];
    /// let mut book = Book::new(&mut bytes);
    /// for (name, x) in [(1, 0), (2, 900)] {
    ///     assert_eq!(book.add(name, Shape::new(&[[x, 0]], 0), usize::MAX), Ok(Addition::Finished));
    /// }
    /// let cart = Shape::new(&[[-200, 0], [500, 0]], 0);
    /// assert_eq!(book.gap(cart)?.rounded(), 200);
    /// # Ok::<(), cocklesway::Refusal>(())
    /// ```
    #[must_use]
    pub const fn rounded(self) -> u64 {
        rounded(self.nearest)
    }
}

/// How far a changed shape reaches beyond the old one.
///
/// ```
/// use cocklesway::{Shape, excess};
///
/// let old = Shape::new(&[[0, 0], [10, 0], [10, 10], [0, 10]], 0);
/// let inner = Shape::new(&[[2, 2], [8, 2], [8, 8], [2, 8]], 0);
/// assert_eq!(excess(inner, old)?.beyond, None);
/// assert_eq!(excess(old, inner)?.up(), 3);
/// # Ok::<(), cocklesway::Refusal>(())
/// ```
#[derive(Clone, Copy, Debug, PartialEq, Eq, Hash)]
#[non_exhaustive]
#[must_use]
pub struct Excess {
    /// Where the new shape reaches furthest, or nothing if it is inside the old one.
    pub beyond: Option<Beyond>,
    /// The floor.
    pub floor: u32,
}

impl Excess {
    /// Returns how far the new shape reaches, rounded up to whole millimetres; 0 if it is inside the old one. No
    /// clearance of the old shape is more than this greater than that of the new one.
    ///
    /// ```
    /// use cocklesway::{Shape, clearance, excess};
    ///
    /// let (old, new) = (Shape::new(&[[0, 0]], 0), Shape::new(&[[1, 1]], 0));
    /// let post = Shape::new(&[[4, 4]], 0);
    /// let (was, up) = (clearance(old, post)?.rounded(), excess(new, old)?.up());
    /// assert_eq!((was, up), (5, 2));
    /// assert!(clearance(new, post)?.rounded() >= was - up);
    /// # Ok::<(), cocklesway::Refusal>(())
    /// ```
    #[must_use]
    pub const fn up(self) -> u64 {
        match self.beyond {
            None => 0,
            Some(Beyond::Corners { up, .. } | Beyond::Edge { up, .. }) => up,
        }
    }
}

/// The corner of a changed shape that is furthest from the old one, and where the old one is nearest to it. There is no
/// third case.
///
/// ```
/// use cocklesway::{Beyond, Shape, excess};
///
/// let triangle = Shape::new(&[[0, 0], [4, 0], [0, 3]], 0);
/// let edge = Beyond::Edge { corner: 0, edge: 1, turn: 9, squared: 25, up: 2 };
/// assert_eq!(excess(Shape::new(&[[3, 3]], 0), triangle)?.beyond, Some(edge));
/// # Ok::<(), cocklesway::Refusal>(())
/// ```
#[derive(Clone, Copy, Debug, PartialEq, Eq, Hash)]
pub enum Beyond {
    /// A corner of the old shape is nearest.
    Corners {
        /// The position in the new shape.
        corner: usize,
        /// The position in the old one.
        other: usize,
        /// Their squared distance, in square millimetres.
        squared: u64,
        /// Their distance, rounded up to whole millimetres.
        up: u64,
    },
    /// A point inside an edge of the old shape is nearest. The distance is t/√q.
    Edge {
        /// The position in the new shape.
        corner: usize,
        /// The position of the edge's first corner.
        edge: usize,
        /// t: the size of the corner's turn against the edge, in square millimetres.
        turn: u64,
        /// q: the squared length of the edge, in square millimetres.
        squared: u64,
        /// The distance, rounded up to whole millimetres.
        up: u64,
    },
}

/// Whether a cart may pass straight between two obstacles.
///
/// ```
/// use cocklesway::{Shape, passage};
///
/// let (left, right) = (Shape::new(&[[0, 5], [8, 5]], 0), Shape::new(&[[0, 0], [8, 0]], 0));
/// let cart = Shape::new(&[[0, 0], [1, 0], [1, 3], [0, 3]], 0);
/// let way = passage(left, right, cart)?.way.expect("there are 2 mm of room");
/// assert_eq!((way.across, way.low, way.high, way.width), ([0, 1], 0, 2, 2));
/// # Ok::<(), cocklesway::Refusal>(())
/// ```
#[derive(Clone, Copy, Debug, PartialEq, Eq, Hash)]
#[non_exhaustive]
#[must_use]
pub struct Passage {
    /// The way, or nothing if the cart is blocked: in every direction the gap is at most its spread.
    pub way: Option<Way>,
    /// The floor.
    pub floor: u32,
}

/// A straight way between two obstacles. At every place (x, y) of the cart's origin with u·x + v·y strictly between
/// `low` and `high`, where (u, v) is `across`, the cart is apart from both. So it is on straight drives between such
/// places.
///
/// ```
/// use cocklesway::{Relation, Shape, passage, relation};
///
/// let (left, right) = (Shape::new(&[[6, 8]], 0), Shape::new(&[[0, 0]], 0));
/// let way = passage(left, right, Shape::new(&[[0, 0], [1, 0]], 0))?.way.expect("there is room");
/// let ([x, y], [u, v]) = ([2, 4], way.across.map(i64::from));
/// assert!(way.low < u * x + v * y && u * x + v * y < way.high);
///
/// let there = Shape::new(&[[2, 4], [3, 4]], 0);
/// assert_eq!(relation(there, left)?.relation, Relation::Apart);
/// # Ok::<(), cocklesway::Refusal>(())
/// ```
#[derive(Clone, Copy, Debug, PartialEq, Eq, Hash)]
#[non_exhaustive]
pub struct Way {
    /// The direction across the way, from the right obstacle to the left one. Its parts have no common divisor above 1.
    pub across: [i32; 2],
    /// The value in that direction at which the cart touches the right obstacle.
    pub low: i64,
    /// The value at which it touches the left one.
    pub high: i64,
    /// The room from `low` to `high` in millimetres, rounded down. No direction has more room.
    pub width: u64,
}

/// Where a cart on a straight drive first meets an obstacle.
///
/// ```
/// use cocklesway::{Shape, contact};
///
/// let wall = Shape::new(&[[6, -5], [6, 5]], 0);
/// let cart = Shape::new(&[[0, 0], [2, 0]], 0);
/// assert_eq!(contact(wall, cart, [0, 0], [3, 0])?.meeting, None);
/// assert!(contact(wall, cart, [0, 0], [4, 0])?.meeting.is_some());
/// # Ok::<(), cocklesway::Refusal>(())
/// ```
#[derive(Clone, Copy, Debug, PartialEq, Eq, Hash)]
#[non_exhaustive]
#[must_use]
pub struct Contact {
    /// Where it first meets the obstacle, or nothing if it never does.
    pub meeting: Option<Meeting>,
    /// The floor.
    pub floor: u32,
}

/// Where on its way a cart first meets an obstacle. Touching is meeting.
///
/// ```
/// use cocklesway::{Shape, contact};
///
/// let (post, cart) = (Shape::new(&[[6, 8]], 0), Shape::new(&[[0, 0]], 0));
/// let meeting = contact(post, cart, [0, 0], [9, 12])?.meeting.expect("the post is on the way");
/// assert_eq!((meeting.numerator, meeting.denominator, meeting.safe), (2, 3, 10));
/// # Ok::<(), cocklesway::Refusal>(())
/// ```
#[derive(Clone, Copy, Debug, PartialEq, Eq, Hash)]
#[non_exhaustive]
pub struct Meeting {
    /// The fraction of the way, in lowest terms: its numerator. 0 if the cart meets the obstacle from the beginning.
    pub numerator: u64,
    /// Its denominator.
    pub denominator: u64,
    /// The millimetres of the way before it, rounded down.
    pub safe: u64,
}

/// Which shape of a floor a cart on a straight drive meets first, and where.
///
/// ```
/// use cocklesway::{Addition, Book, Shape};
///
/// let mut bytes = [0; 64];
/// let mut book = Book::new(&mut bytes);
/// for (name, x) in [(7, 30), (8, 10)] {
///     assert_eq!(book.add(name, Shape::new(&[[x, 0]], 3), usize::MAX), Ok(Addition::Finished));
/// }
/// let cart = Shape::new(&[[0, 0], [2, 0]], 3);
/// let (name, meeting) = book.contact(cart, [0, 0], [40, 0])?.first.expect("both are ahead");
/// assert_eq!((name, meeting.numerator, meeting.denominator, meeting.safe), (8, 1, 5, 8));
/// assert_eq!(book.contact(cart, [0, 0], [7, 0])?.first, None);
/// # Ok::<(), cocklesway::Refusal>(())
/// ```
#[derive(Clone, Copy, Debug, PartialEq, Eq, Hash)]
#[non_exhaustive]
#[must_use]
pub struct Drive {
    /// The name of the shape that it meets first, and where; nothing if it meets none.
    pub first: Option<(u16, Meeting)>,
    /// The floor.
    pub floor: u32,
}

/// A line from a corner of the first shape to a corner of the second, by their positions.
///
/// ```
/// use cocklesway::{Shape, tangents};
///
/// let answer = tangents(Shape::new(&[[0, 0]], 0), Shape::new(&[[3, 0], [3, 1]], 0))?;
/// assert_eq!((answer.left.from, answer.left.to), (0, 0));
/// # Ok::<(), cocklesway::Refusal>(())
/// ```
#[derive(Clone, Copy, Debug, PartialEq, Eq, Hash)]
#[non_exhaustive]
pub struct Line {
    /// The position in the first shape.
    pub from: usize,
    /// The position in the second.
    pub to: usize,
}

/// The four lines that just touch two shapes.
///
/// ```
/// use cocklesway::{Shape, tangents};
///
/// let near = Shape::new(&[[0, 0], [2, 0], [2, 2], [0, 2]], 0);
/// let far = Shape::new(&[[5, 0], [7, 0], [7, 2], [5, 2]], 0);
/// let answer = tangents(near, far)?;
/// let lines = [answer.left, answer.right, answer.crossing, answer.reverse];
/// assert_eq!(lines.map(|line| [line.from, line.to]), [[1, 0], [2, 3], [1, 3], [2, 0]]);
/// # Ok::<(), cocklesway::Refusal>(())
/// ```
#[derive(Clone, Copy, Debug, PartialEq, Eq, Hash)]
#[non_exhaustive]
#[must_use]
pub struct Tangents {
    /// Both shapes are on its left.
    pub left: Line,
    /// Both are on its right.
    pub right: Line,
    /// The first is on its left and the second on its right.
    pub crossing: Line,
    /// The first is on its right and the second on its left.
    pub reverse: Line,
    /// The floor.
    pub floor: u32,
}
