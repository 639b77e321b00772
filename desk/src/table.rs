//! The table of the words that begin a line. A new question is a row here, a case of `Question` and what follows from
//! it: how it is asked, its sentence, its JSON.
use crate::fields::{Fields, Part, Unread};
use crate::given::Pair;
use crate::question::{
    Around, Drive, Making, Narrowest, OfOne, OfTwo, Packing, Past, Question, Record,
};

/// A question: how its line is written, and what it asks.
pub struct Row {
    /// Its word.
    pub word: &'static str,
    /// Its fields.
    pub parts: &'static [Part],
    /// Reads the fields.
    pub read: fn(&mut Fields<'_>) -> Result<Question, Unread>,
    /// What it asks.
    pub asks: &'static str,
    /// A line that asks it.
    pub example: &'static str,
}

const fn part(holds: &'static str) -> Part {
    Part {
        holds,
        optional: false,
    }
}

const fn optional(holds: &'static str) -> Part {
    Part {
        holds,
        optional: true,
    }
}

const A: Part = part("shape");
const B: Part = part("another shape");
const TOWARDS: Part = part("direction u v");
const ROOM: Part = optional("room in numbers");
const LOG: Part = part("log in hexadecimal");

/// The questions, in the order of the help.
#[rustfmt::skip]
pub const TABLE: &[Row] = &[
    Row {
        word: "judge", parts: &[A], read: |f| Ok(Question::One(f.shape()?, OfOne::Judge)),
        asks: "is it a shape?", example: "judge | linen-store",
    },
    Row {
        word: "relation", parts: &[A, B], read: |f| Ok(Question::Two(f.pair()?, OfTwo::Relation)),
        asks: "are they apart, do they touch or overlap?", example: "relation | linen-store | wall",
    },
    Row {
        word: "clearance", parts: &[A, B], read: |f| Ok(Question::Two(f.pair()?, OfTwo::Clearance)),
        asks: "how near are they, and where?", example: "clearance | linen-store | wall",
    },
    Row {
        word: "greatest", parts: &[A, B], read: |f| Ok(Question::Two(f.pair()?, OfTwo::Greatest)),
        asks: "how far apart are they at most, and where?", example: "greatest | linen-store | wall",
    },
    Row {
        word: "excess", parts: &[part("changed shape"), part("shape before")],
        read: |f| Ok(Question::Two(f.pair()?, OfTwo::Excess)),
        asks: "how far does a changed shape reach beyond the old one?",
        example: "excess | @2 3000 900 3700 900 3700 1800 3000 1800 | linen-store",
    },
    Row {
        word: "inside", parts: &[A, part("shape around it")], read: |f| Ok(Question::Two(f.pair()?, OfTwo::Inside)),
        asks: "is the first inside the second?", example: "inside | @2 3500 1200 | linen-store",
    },
    Row {
        word: "length", parts: &[A], read: |f| Ok(Question::One(f.shape()?, OfOne::Length)),
        asks: "how long is it, from corner to corner?", example: "length | linen-store",
    },
    Row {
        word: "width", parts: &[A], read: |f| Ok(Question::One(f.shape()?, OfOne::Width)),
        asks: "how wide is it where it is narrowest?", example: "width | linen-store",
    },
    Row {
        word: "box", parts: &[A], read: |f| Ok(Question::One(f.shape()?, OfOne::Box)),
        asks: "what is the least box about it, and along which edge?", example: "box | linen-store",
    },
    Row {
        word: "area", parts: &[A], read: |f| Ok(Question::One(f.shape()?, OfOne::Area)),
        asks: "how large is it?", example: "area | linen-store",
    },
    Row {
        word: "furthest", parts: &[A, TOWARDS],
        read: |f| Ok(Question::One(f.shape()?, OfOne::Furthest(f.direction()?))),
        asks: "which corners are furthest in a direction?", example: "furthest | linen-store | 1 0",
    },
    Row {
        word: "tangents", parts: &[A, B], read: |f| Ok(Question::Two(f.pair()?, OfTwo::Tangents)),
        asks: "which four lines just touch both?", example: "tangents | linen-store | wall",
    },
    Row {
        word: "find", parts: &[A, B], read: |f| Ok(Question::Two(f.pair()?, OfTwo::Find)),
        asks: "in which direction is all of the first before the second?", example: "find | linen-store | wall",
    },
    Row {
        word: "offer", parts: &[A, B, TOWARDS], read: |f| Ok(Question::Two(f.pair()?, OfTwo::Offer(f.direction()?))),
        asks: "is all of the first before the second in this direction?",
        example: "offer | linen-store | wall | 0 1",
    },
    Row {
        word: "grow", parts: &[part("obstacle"), part("cart's outline"), ROOM],
        read: |f| Ok(Question::Make(Making::Grow(f.pair()?), f.optional_count("room")?)),
        asks: "at which places does the cart meet the obstacle?", example: "grown = grow | linen-store | cart",
    },
    Row {
        word: "passage", parts: &[part("left obstacle"), part("right obstacle"), part("cart's outline")],
        read: |f| Ok(Question::Passage(f.trio()?)),
        asks: "may the cart pass straight between the two, and where?",
        example: "passage | wall | linen-store | cart",
    },
    Row {
        word: "contact",
        parts: &[part("obstacle"), part("cart's outline"), part("place x y"), part("place u v")],
        read: |f| Ok(Question::Contact(Drive { pair: f.pair()?, from: f.end()?, to: f.end()? })),
        asks: "driven straight from one place to another, where does the cart first meet the obstacle?",
        example: "contact | linen-store | cart | 0 0 | 6000 1500",
    },
    Row {
        word: "at", parts: &[part("shape or outline"), part("place x y")],
        read: |f| Ok(Question::Make(Making::At(Pair { a: f.shape()?, b: f.place()? }), None)),
        asks: "the shape with its origin at the place", example: "there = at | cart | @2 3500 0",
    },
    Row {
        word: "merge", parts: &[A, B, ROOM],
        read: |f| Ok(Question::Make(Making::Merge(f.pair()?), f.optional_count("room")?)),
        asks: "the shape of both together", example: "both = merge | linen-store | @2 5000 1400",
    },
    Row {
        word: "sweep", parts: &[part("points"), ROOM],
        read: |f| Ok(Question::Make(Making::Sweep(f.shape()?), f.optional_count("room")?)),
        asks: "the shape of points in any order", example: "bed = sweep | @2 100 0 0 50 100 50 0 0 20 20",
    },
    Row {
        word: "ring", parts: &[part("points in order, either way round"), ROOM],
        read: |f| Ok(Question::Make(Making::Ring(f.shape()?), f.optional_count("room")?)),
        asks: "the shape of a ring, closed or open, from any corner",
        example: "bed = ring | @2 0 50 100 50 100 0 0 0 0 50",
    },
    Row {
        word: "sum", parts: &[A, B, ROOM],
        read: |f| Ok(Question::Make(Making::Sum(f.pair()?), f.optional_count("room")?)),
        asks: "the shape of all corner-plus-corner points", example: "sum | linen-store | cart",
    },
    Row {
        word: "mirror", parts: &[A, ROOM],
        read: |f| Ok(Question::Make(Making::Mirror(f.shape()?), f.optional_count("room")?)),
        asks: "the shape of all (-x, -y)", example: "mirror | cart",
    },
    Row {
        word: "parts", parts: &[A, B, part("calls CORNERS:ROOM")],
        read: |f| Ok(Question::Two(f.pair()?, OfTwo::Parts(f.calls()?))),
        asks: "the sum in parts, call after call", example: "parts | linen-store | cart | 2:4 9:8",
    },
    Row {
        word: "part", parts: &[A, B, part("walk I J OVER"), part("call CORNERS ROOM")],
        read: |f| Ok(Question::Two(f.pair()?, OfTwo::Part(f.walk()?, f.call()?))),
        asks: "one part of the sum, from any walk", example: "part | linen-store | cart | 1 1 0 | 1 2",
    },
    Row {
        word: "tablet", parts: &[part("reading of x"), part("reading of y")],
        read: |f| Ok(Question::Tablet([f.reading()?, f.reading()?])),
        asks: "the corner of two readings of the tablet",
        example: "tablet | mm 0x4008000000000000 | e8 0xc030000000000000",
    },
    Row {
        word: "bookread", parts: &[LOG, part("name of a record"), ROOM],
        read: |f| {
            let making = Making::Read { log: f.bytes()?, name: f.record_name()? };
            Ok(Question::Make(making, f.optional_count("room")?))
        },
        asks: "the latest shape of a name in a log", example: "bookread | 0F0002000700020001000000FFFFFFFF5A | 7",
    },
    Row {
        word: "bookadd",
        parts: &[LOG, part("name of a record"), part("shape"), optional("stores")],
        read: |f| Ok(Question::Add(Record {
            log: f.bytes()?, name: f.record_name()?, shape: f.shape()?, stores: f.optional_count("stores")?,
        })),
        asks: "the log after the shape is added",
        example: "bookadd | 000000000000000000000000000000000000 | 7 | @2 1 -1",
    },
    Row {
        word: "pack",
        parts: &[LOG, part("bytes to pack it into"), part("name to leave out, or nothing"), optional("stores")],
        read: |f| Ok(Question::Pack(Packing {
            old: f.bytes()?, new: f.bytes()?, but: f.but()?, stores: f.optional_count("stores")?,
        })),
        asks: "the latest records of a log alone, in a second run of bytes",
        example: "pack | 0F0002000700020001000000FFFFFFFF5A | 0000000000000000000000000000000000 |",
    },
    Row {
        word: "entry", parts: &[LOG, part("position from 0"), ROOM],
        read: |f| {
            let making = Making::Entry { log: f.bytes()?, position: f.position()? };
            Ok(Question::Make(making, f.optional_count("room")?))
        },
        asks: "the current shape at a position of a log, with its name",
        example: "entry | 0F0002000700020001000000FFFFFFFF5A | 0",
    },
    Row {
        word: "nearest", parts: &[LOG, part("shape, or @FLOOR and an outline"), optional("name to leave out")],
        read: |f| Ok(Question::Nearest(Around { log: f.bytes()?, shape: f.shape_on_floor()?, but: f.but()? })),
        asks: "which current shape of a log is nearest on the floor?",
        example: "nearest | 0F0002000700020001000000FFFFFFFF5A | linen-store",
    },
    Row {
        word: "gap", parts: &[LOG, part("cart's outline, after @FLOOR")],
        read: |f| Ok(Question::Gap(Narrowest { log: f.bytes()?, cart: f.shape_on_floor()? })),
        asks: "which two current shapes of a log on the floor leave the narrowest gap for the cart?",
        example: "gap | 0F0002000700020001000000FFFFFFFF5A0F0002000800020009000000FFFFFFFF5A | @2 0 0",
    },
    Row {
        word: "drive",
        parts: &[LOG, part("cart's outline, after @FLOOR"), part("place x y"), part("place u v")],
        read: |f| Ok(Question::Drive(Past {
            log: f.bytes()?, cart: f.shape_on_floor()?, from: f.end()?, to: f.end()?,
        })),
        asks: "driven straight from one place to another, which current shape of a log on the floor does the cart \
               first meet?",
        example: "drive | 0F0002000700020001000000FFFFFFFF5A | @2 0 0 | -9 -1 | 9 -1",
    },
];

/// The fields of a shape that is written down.
pub const SHAPE: &[Part] = &[part("name"), part("corners, after their floor")];

/// The fields of an outline.
pub const OUTLINE: &[Part] = &[part("name"), part("corners")];

/// Returns the row of a word.
#[must_use]
pub fn find(word: &str) -> Option<&'static Row> {
    TABLE.iter().find(|row| row.word == word)
}

/// Returns all words that begin a line.
pub fn words() -> impl Iterator<Item = &'static str> {
    let others = ["shape", "outline", "unit", "shapes"].into_iter();
    others.chain(TABLE.iter().map(|row| row.word))
}
