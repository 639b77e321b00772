//! Questions, read and not yet asked.
use crate::given::{Given, Pair, Trio};
use cocklesway::{Reading, Walk};

/// A question of a line.
#[derive(Clone, Debug, PartialEq)]
pub enum Question {
    /// About one shape.
    One(Given, OfOne),
    /// About two shapes.
    Two(Pair, OfTwo),
    /// One that answers a shape. The second value is the output's room in numbers; without it every answer has room.
    Make(Making, Option<usize>),
    /// May a cart pass straight between two obstacles?
    Passage(Trio),
    /// The corner of two readings of the tablet.
    Tablet([Reading; 2]),
    /// A shape added to a log.
    Add(Record),
    /// Packing a log into a second run of bytes.
    Pack(Packing),
    /// The nearest current shape of a log.
    Nearest(Around),
    /// The two current shapes of a log with the narrowest gap.
    Gap(Narrowest),
    /// The current shape of a log that a cart first meets.
    Drive(Past),
    /// Where a cart first meets an obstacle.
    Contact(Drive),
}

/// What is asked about one shape.
#[derive(Clone, Copy, Debug, PartialEq, Eq)]
pub enum OfOne {
    /// Is it a shape?
    Judge,
    /// Which corners are furthest in a direction?
    Furthest([i32; 2]),
    /// How long is it?
    Length,
    /// How wide is it?
    Width,
    /// What is the least box about it?
    Box,
    /// How large is it?
    Area,
}

/// What is asked about two shapes.
#[derive(Clone, Debug, PartialEq, Eq)]
pub enum OfTwo {
    /// Are they apart, touching or overlapping?
    Relation,
    /// Is the first inside the second?
    Inside,
    /// Is the direction a reason that they are apart?
    Offer([i32; 2]),
    /// Which direction is one?
    Find,
    /// How near are they?
    Clearance,
    /// How far apart are they at most?
    Greatest,
    /// How far does the first reach beyond the second?
    Excess,
    /// Which lines just touch both?
    Tangents,
    /// Their sum in parts, from its beginning.
    Parts(Vec<Call>),
    /// One part of their sum, from any walk.
    Part(Walk, Call),
}

/// A question that answers a shape.
#[derive(Clone, Debug, PartialEq, Eq)]
pub enum Making {
    /// All (-x, -y).
    Mirror(Given),
    /// All corner-plus-corner points.
    Sum(Pair),
    /// Both together.
    Merge(Pair),
    /// The obstacle, grown by the cart's outline.
    Grow(Pair),
    /// The shape of points in any order.
    Sweep(Given),
    /// The shape of a ring as people draw it.
    Ring(Given),
    /// A shape, moved by the vector to a point.
    At(Pair),
    /// The latest shape of a name in a log.
    Read {
        /// The bytes of the log.
        log: Vec<u8>,
        /// The name.
        name: u16,
    },
    /// The current shape at a position of a log.
    Entry {
        /// The bytes of the log.
        log: Vec<u8>,
        /// The position, from 0.
        position: usize,
    },
}

/// A call of a sum in parts: how many corners it may write, and how many numbers its output holds.
#[derive(Clone, Copy, Debug, PartialEq, Eq)]
pub struct Call {
    /// How many corners it may write.
    pub corners: usize,
    /// How many numbers its output holds.
    pub room: usize,
}

/// An addition to a log.
#[derive(Clone, Debug, PartialEq, Eq)]
pub struct Record {
    /// The bytes of the log.
    pub log: Vec<u8>,
    /// The name.
    pub name: u16,
    /// The shape.
    pub shape: Given,
    /// How many stores it may make; as many as it needs if this is left out.
    pub stores: Option<usize>,
}

/// A packing of a log.
#[derive(Clone, Debug, PartialEq, Eq)]
pub struct Packing {
    /// The bytes of the log.
    pub old: Vec<u8>,
    /// The bytes that it is packed into.
    pub new: Vec<u8>,
    /// The name that is left out.
    pub but: Option<u16>,
    /// How many stores it may make; as many as it needs if this is left out.
    pub stores: Option<usize>,
}

/// A shape among those of a log.
#[derive(Clone, Debug, PartialEq, Eq)]
pub struct Around {
    /// The bytes of the log.
    pub log: Vec<u8>,
    /// The shape, on its floor.
    pub shape: Given,
    /// The name that is left out.
    pub but: Option<u16>,
}

/// The shapes of a log on a floor, and the cart between them.
#[derive(Clone, Debug, PartialEq, Eq)]
pub struct Narrowest {
    /// The bytes of the log.
    pub log: Vec<u8>,
    /// The cart's outline, on the floor.
    pub cart: Given,
}

/// The shapes of a log on a floor, and a straight drive past them.
#[derive(Clone, Debug, PartialEq, Eq)]
pub struct Past {
    /// The bytes of the log.
    pub log: Vec<u8>,
    /// The cart's outline, on the floor.
    pub cart: Given,
    /// The place of departure.
    pub from: [i32; 2],
    /// The destination.
    pub to: [i32; 2],
}

/// A straight drive past an obstacle.
#[derive(Clone, Debug, PartialEq, Eq)]
pub struct Drive {
    /// The obstacle, and the cart's outline.
    pub pair: Pair,
    /// The place of departure.
    pub from: [i32; 2],
    /// The destination.
    pub to: [i32; 2],
}

impl Question {
    /// Returns the word that asks it.
    #[must_use]
    pub fn word(&self) -> &'static str {
        match self {
            Question::One(_, asked) => asked.word(),
            Question::Two(_, asked) => asked.word(),
            Question::Make(making, _) => making.word(),
            Question::Passage(_) => "passage",
            Question::Tablet(_) => "tablet",
            Question::Add(_) => "bookadd",
            Question::Pack(_) => "pack",
            Question::Nearest(_) => "nearest",
            Question::Gap(_) => "gap",
            Question::Drive(_) => "drive",
            Question::Contact(_) => "contact",
        }
    }

    /// Returns its shapes, in order.
    #[must_use]
    pub fn shapes(&self) -> Vec<&Given> {
        match self {
            Question::One(shape, _)
            | Question::Add(Record { shape, .. })
            | Question::Nearest(Around { shape, .. })
            | Question::Gap(Narrowest { cart: shape, .. })
            | Question::Drive(Past { cart: shape, .. }) => vec![shape],
            Question::Two(pair, _) | Question::Contact(Drive { pair, .. }) => {
                vec![&pair.a, &pair.b]
            }
            Question::Make(making, _) => making.shapes(),
            Question::Passage(trio) => trio.shapes().to_vec(),
            Question::Tablet(_) | Question::Pack(_) => Vec::new(),
        }
    }
}

impl OfOne {
    /// Returns the word that asks it.
    #[must_use]
    pub fn word(&self) -> &'static str {
        match self {
            OfOne::Judge => "judge",
            OfOne::Furthest(_) => "furthest",
            OfOne::Length => "length",
            OfOne::Width => "width",
            OfOne::Box => "box",
            OfOne::Area => "area",
        }
    }
}

impl OfTwo {
    /// Returns the word that asks it.
    #[must_use]
    pub fn word(&self) -> &'static str {
        match self {
            OfTwo::Relation => "relation",
            OfTwo::Inside => "inside",
            OfTwo::Offer(_) => "offer",
            OfTwo::Find => "find",
            OfTwo::Clearance => "clearance",
            OfTwo::Greatest => "greatest",
            OfTwo::Excess => "excess",
            OfTwo::Tangents => "tangents",
            OfTwo::Parts(_) => "parts",
            OfTwo::Part(..) => "part",
        }
    }
}

impl Making {
    /// Returns the word that asks it.
    #[must_use]
    pub fn word(&self) -> &'static str {
        match self {
            Making::Mirror(_) => "mirror",
            Making::Sum(_) => "sum",
            Making::Merge(_) => "merge",
            Making::Grow(_) => "grow",
            Making::Sweep(_) => "sweep",
            Making::Ring(_) => "ring",
            Making::At(_) => "at",
            Making::Read { .. } => "bookread",
            Making::Entry { .. } => "entry",
        }
    }

    /// Returns its shapes, in order.
    #[must_use]
    pub fn shapes(&self) -> Vec<&Given> {
        match self {
            Making::Mirror(shape) | Making::Sweep(shape) | Making::Ring(shape) => vec![shape],
            Making::Sum(pair) | Making::Merge(pair) | Making::Grow(pair) | Making::At(pair) => {
                vec![&pair.a, &pair.b]
            }
            Making::Read { .. } | Making::Entry { .. } => Vec::new(),
        }
    }

    /// Returns the floor of its answer; nothing if all its shapes are outlines, or if the answer itself has it.
    #[must_use]
    pub fn floor(&self) -> Option<u16> {
        self.shapes().iter().find_map(|shape| shape.floor)
    }
}
