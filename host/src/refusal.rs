//! Refusals.
use crate::reply::position;
use core::error::Error;
use core::fmt;

/// Which of the lent lists a refusal blames.
///
/// ```
/// use cocklesway::{Refusal, Shape, Which, relation};
///
/// let (point, nothing) = (Shape::new(&[[0, 0]], 0), Shape::new(&[], 0));
/// assert_eq!(relation(point, nothing), Err(Refusal::Count { shape: Which::Second }));
/// ```
#[derive(Clone, Copy, Debug, PartialEq, Eq, Hash)]
#[non_exhaustive]
pub enum Which {
    /// The first one, also where there is one only.
    First,
    /// The second one: also the place that a drive past the shapes of a log begins at.
    Second,
    /// The third one: the cart of a passage, the place that a drive towards an obstacle begins at, or the one that a
    /// drive past the shapes of a log ends at.
    Third,
    /// The fourth one: the place that a drive towards an obstacle ends at.
    Fourth,
}

/// A coordinate of a corner.
///
/// ```
/// use cocklesway::{Axis, Reading, Refusal, tablet};
///
/// let (x, y) = (Reading::Millimetres(1.0), Reading::Millimetres(0.5));
/// assert_eq!(tablet(x, y), Err(Refusal::NotWhole { axis: Axis::Y }));
/// ```
#[derive(Clone, Copy, Debug, PartialEq, Eq, Hash)]
pub enum Axis {
    /// Along the first axis.
    X,
    /// Along the second axis.
    Y,
}

/// Why a question was refused. Nothing was written then. The numbers are those of the table of refusals.
///
/// ```
/// use cocklesway::{Refusal, Shape, relation};
///
/// let (here, above) = (Shape::new(&[[0, 0]], 1), Shape::new(&[[0, 0]], 2));
/// let refusal = relation(here, above).unwrap_err();
/// assert_eq!(refusal, Refusal::Floors);
/// assert_eq!(refusal.to_string(), "refused 13: the floors differ, or one is above the highest");
/// ```
#[derive(Clone, Copy, Debug, PartialEq, Eq, Hash)]
#[non_exhaustive]
pub enum Refusal {
    /// 1: the list is empty, or its last corner is not whole: an odd count of numbers, or a count of bytes that is
    /// no multiple of eight.
    Count {
        /// The list that is blamed.
        shape: Which,
    },
    /// 2: the list has more corners than a shape may have, or more points than a sweep or a ring may have.
    Corners {
        /// The list that is blamed.
        shape: Which,
    },
    /// 3: a coordinate of the list is out of range.
    Range {
        /// The list that is blamed.
        shape: Which,
    },
    /// 4: a corner is not strictly to the left of an edge, or a list of two corners has two equal ones. The first
    /// such edge, and its first such corner; for two equal corners 0 and 1.
    Side {
        /// The list that is blamed.
        shape: Which,
        /// The position of the corner that the edge begins at.
        edge: usize,
        /// The position of the corner.
        corner: usize,
    },
    /// 4: a ring is not convex. Positions count in the given list.
    NotConvex {
        /// The position of the corner before.
        before: usize,
        /// The position of the corner at which the ring turns in, or at which it begins to go round again.
        corner: usize,
    },
    /// 5: the list does not begin at its lowest corner, or not at the leftmost of several lowest.
    Start {
        /// The list that is blamed.
        shape: Which,
    },
    /// 6: the answer would have more corners than a shape may have.
    LargeAnswer,
    /// 7: the answer would have a coordinate out of range.
    FarAnswer,
    /// 8: the output has fewer corners than the answer.
    Room,
    /// 9: the shapes are not apart, and the lines that just touch both are asked for.
    NotApart,
    /// 10: the width or the least box of a point or a segment is asked for.
    Flat,
    /// 11: the direction is 0 0, or a part of it is out of range.
    Direction,
    /// 12: the parts of the direction have a common divisor above 1.
    NotPrimitive,
    /// 13: the floors differ, or one is above the highest.
    Floors,
    /// 14: the walk is at no place of the sum of these shapes.
    NotAPlace,
    /// 15: a whole record of the log is of an unknown kind or a wrong length, or its corners are no shape.
    Damaged {
        /// The byte that the first such record begins at.
        place: usize,
    },
    /// 16: there is too little room after the last whole record of the log.
    Full,
    /// 17: a reading is not finite.
    NotFinite {
        /// The coordinate that was read.
        axis: Axis,
    },
    /// 18: a reading is not a whole number of millimetres.
    NotWhole {
        /// The coordinate that was read.
        axis: Axis,
    },
    /// 3: a reading is out of range.
    FarReading {
        /// The coordinate that was read.
        axis: Axis,
    },
    /// 19: no record of the log has the name.
    NoRecord,
    /// 20: fewer shapes are on the floor, or in the log, than the question compares.
    TooFew,
    /// A number that this package does not know. The archive that it is made for gives none.
    Other {
        /// The number.
        number: u64,
    },
}

impl Refusal {
    /// The refusal of that number, by what it carries: of lists, walks and logs.
    pub(crate) fn of(number: u64, [first, second, third]: [u64; 3]) -> Refusal {
        let shape = Which::of(first);
        match number {
            1 => Refusal::Count { shape },
            2 => Refusal::Corners { shape },
            3 => Refusal::Range { shape },
            4 => Refusal::Side {
                shape,
                edge: position(second),
                corner: position(third),
            },
            5 => Refusal::Start { shape },
            15 => Refusal::Damaged {
                place: position(first),
            },
            _ => Refusal::plain(number),
        }
    }

    /// The same of a ring, which is one list and has no edges to be left of.
    pub(crate) fn of_ring(self) -> Refusal {
        match self {
            Refusal::Side { edge, corner, .. } => Refusal::NotConvex {
                before: edge,
                corner,
            },
            other => other,
        }
    }

    /// A refusal that carries nothing.
    fn plain(number: u64) -> Refusal {
        match number {
            6 => Refusal::LargeAnswer,
            7 => Refusal::FarAnswer,
            8 => Refusal::Room,
            9 => Refusal::NotApart,
            10 => Refusal::Flat,
            11 => Refusal::Direction,
            12 => Refusal::NotPrimitive,
            13 => Refusal::Floors,
            14 => Refusal::NotAPlace,
            16 => Refusal::Full,
            19 => Refusal::NoRecord,
            20 => Refusal::TooFew,
            _ => Refusal::Other { number },
        }
    }

    /// The same of a reading, which is of x or y.
    pub(crate) fn of_reading(number: u64, [part, ..]: [u64; 3]) -> Refusal {
        let axis = if part == 1 { Axis::X } else { Axis::Y };
        match number {
            3 => Refusal::FarReading { axis },
            17 => Refusal::NotFinite { axis },
            18 => Refusal::NotWhole { axis },
            _ => Refusal::Other { number },
        }
    }

    /// The words of a refusal that carries nothing.
    fn words(self) -> &'static str {
        match self {
            Refusal::LargeAnswer => "the answer would have too many corners",
            Refusal::FarAnswer => "the answer would have a coordinate out of range",
            Refusal::Room => "the output is too small for the answer",
            Refusal::NotApart => "the shapes are not apart, so no lines just touch both",
            Refusal::Flat => "a point or a segment has no width and no box",
            Refusal::Direction => "the direction is 0 0, or a part of it is out of range",
            Refusal::NotPrimitive => "the parts of the direction have a common divisor above 1",
            Refusal::Floors => "the floors differ, or one is above the highest",
            Refusal::NotAPlace => "the walk is at no place of the sum of these shapes",
            Refusal::Full => "there is too little room after the last whole record of the log",
            Refusal::NoRecord => "no record of the log has the name",
            Refusal::TooFew => {
                "fewer shapes are on the floor, or in the log, than the question compares"
            }
            _ => "this package does not know the number",
        }
    }

    /// Returns its number in the table of refusals.
    ///
    /// ```
    /// use cocklesway::{Refusal, Which};
    ///
    /// assert_eq!(Refusal::Start { shape: Which::First }.number(), 5);
    /// assert_eq!(Refusal::Floors.number(), 13);
    /// ```
    #[must_use]
    pub const fn number(self) -> u64 {
        match self {
            Refusal::Count { .. } => 1,
            Refusal::Corners { .. } => 2,
            Refusal::Range { .. } | Refusal::FarReading { .. } => 3,
            Refusal::Side { .. } | Refusal::NotConvex { .. } => 4,
            Refusal::Start { .. } => 5,
            Refusal::LargeAnswer => 6,
            Refusal::FarAnswer => 7,
            Refusal::Room => 8,
            Refusal::NotApart => 9,
            Refusal::Flat => 10,
            Refusal::Direction => 11,
            Refusal::NotPrimitive => 12,
            Refusal::Floors => 13,
            Refusal::NotAPlace => 14,
            Refusal::Damaged { .. } => 15,
            Refusal::Full => 16,
            Refusal::NotFinite { .. } => 17,
            Refusal::NotWhole { .. } => 18,
            Refusal::NoRecord => 19,
            Refusal::TooFew => 20,
            Refusal::Other { number } => number,
        }
    }

    /// Returns the list that 1 to 5 blame, and nothing for any other refusal.
    ///
    /// ```
    /// use cocklesway::{Refusal, Which};
    ///
    /// assert_eq!(Refusal::Start { shape: Which::Second }.shape(), Some(Which::Second));
    /// assert_eq!(Refusal::Floors.shape(), None);
    /// ```
    #[must_use]
    pub const fn shape(self) -> Option<Which> {
        match self {
            Refusal::Count { shape }
            | Refusal::Corners { shape }
            | Refusal::Range { shape }
            | Refusal::Side { shape, .. }
            | Refusal::Start { shape } => Some(shape),
            Refusal::NotConvex { .. } => Some(Which::First),
            _ => None,
        }
    }
}

impl Which {
    /// 1 is the first.
    pub(crate) fn of(number: u64) -> Which {
        match number {
            1 => Which::First,
            2 => Which::Second,
            3 => Which::Third,
            _ => Which::Fourth,
        }
    }
}

impl fmt::Display for Which {
    fn fmt(&self, f: &mut fmt::Formatter<'_>) -> fmt::Result {
        f.write_str(match self {
            Which::First => "first list",
            Which::Second => "second list",
            Which::Third => "third list",
            Which::Fourth => "fourth list",
        })
    }
}

impl fmt::Display for Axis {
    fn fmt(&self, f: &mut fmt::Formatter<'_>) -> fmt::Result {
        f.write_str(match self {
            Axis::X => "x",
            Axis::Y => "y",
        })
    }
}

impl fmt::Display for Refusal {
    fn fmt(&self, f: &mut fmt::Formatter<'_>) -> fmt::Result {
        write!(f, "refused {}: ", self.number())?;
        match *self {
            Refusal::Count { shape } => {
                write!(f, "the {shape} is empty, or its last corner is not whole")
            }
            Refusal::Corners { shape } => write!(f, "the {shape} has too many corners or points"),
            Refusal::Range { shape } => write!(f, "the {shape} has a coordinate out of range"),
            Refusal::Side {
                shape,
                edge,
                corner,
            } => fmt_side(f, shape, edge, corner),
            Refusal::NotConvex { before, corner } => {
                write!(
                    f,
                    "the ring turns in at corner {corner}, after corner {before}, "
                )?;
                f.write_str("or begins to go round again there")
            }
            Refusal::Start { shape } => {
                write!(
                    f,
                    "the {shape} does not begin at the leftmost of its lowest corners"
                )
            }
            Refusal::Damaged { place } => {
                write!(f, "the record at byte {place} is of an unknown kind ")?;
                f.write_str("or a wrong length, or its corners are no shape")
            }
            Refusal::NotFinite { axis } => write!(f, "the reading of {axis} is not finite"),
            Refusal::NotWhole { axis } => {
                write!(f, "the reading of {axis} is no whole number of millimetres")
            }
            Refusal::FarReading { axis } => write!(f, "the reading of {axis} is out of range"),
            _ => f.write_str(self.words()),
        }
    }
}

impl Error for Refusal {}

/// The words of 4. Corner 1 is an end of edge 0, so only a list of two equal corners is blamed by 0 and 1.
fn fmt_side(f: &mut fmt::Formatter<'_>, shape: Which, edge: usize, corner: usize) -> fmt::Result {
    match (edge, corner) {
        (0, 1) => write!(f, "the two corners of the {shape} are equal"),
        _ => write!(
            f,
            "corner {corner} of the {shape} is not strictly left of its edge {edge}"
        ),
    }
}
