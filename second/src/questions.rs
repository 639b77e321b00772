//! The table of questions. A new one is a row here, with a function that answers it (`ask`) and
//! one that makes the fields of random questions of it (`make::fields`).

use crate::ask::{self, Answer};
use crate::make::dice::Dice;
use crate::make::fields as make;
use crate::make::{around, drives, host, logs, parts, readings};
use crate::text::fields::Field::{
    self, But, Bytes, Call, Calls, Direction, Excepted, Floor, Log, Name, Output, Position,
    Reading, Room, Shape, Stores, Walk,
};
use crate::text::given::Given;

pub struct Row<Told = Answer> {
    pub word: &'static str,
    pub fields: &'static [Field],
    pub ask: fn(&Given) -> Told,
    /// The text of each field.
    pub make: fn(&mut Dice) -> Vec<String>,
}

#[rustfmt::skip]
pub const TABLE: &[Row] = &[
    Row { word: "judge", fields: &[Shape], ask: ask::judge, make: make::judge },
    Row { word: "furthest", fields: &[Shape, Direction], ask: ask::furthest, make: make::furthest },
    Row { word: "mirror", fields: &[Shape, Room], ask: ask::mirror, make: make::mirror },
    Row { word: "sum", fields: &[Shape, Shape, Room], ask: ask::sum, make: make::sum },
    Row { word: "parts", fields: &[Shape, Shape, Calls], ask: ask::parts, make: parts::parts },
    Row { word: "part", fields: &[Shape, Shape, Walk, Call], ask: ask::part, make: parts::part },
    Row { word: "merge", fields: &[Shape, Shape, Room], ask: ask::merge, make: make::merge },
    Row { word: "grow", fields: &[Shape, Shape, Room], ask: ask::grow, make: make::grow },
    Row { word: "sweep", fields: &[Shape, Room], ask: ask::sweep, make: make::sweep },
    Row { word: "ring", fields: &[Shape, Room], ask: ask::ring, make: make::ring },
    Row { word: "length", fields: &[Shape], ask: ask::length, make: make::one_shape },
    Row { word: "area", fields: &[Shape], ask: ask::area, make: make::one_shape },
    Row { word: "width", fields: &[Shape], ask: ask::width, make: make::one_shape },
    Row { word: "box", fields: &[Shape], ask: ask::least_box, make: make::least_box },
    Row { word: "relation", fields: &[Shape, Shape], ask: ask::relation, make: make::two_shapes },
    Row { word: "inside", fields: &[Shape, Shape], ask: ask::inside, make: make::two_shapes },
    Row { word: "offer", fields: &[Shape, Shape, Direction], ask: ask::offer, make: make::offer },
    Row { word: "find", fields: &[Shape, Shape], ask: ask::find, make: make::find },
    Row { word: "clearance", fields: &[Shape, Shape], ask: ask::clearance, make: make::clearance },
    Row { word: "greatest", fields: &[Shape, Shape], ask: ask::greatest, make: make::greatest },
    Row { word: "excess", fields: &[Shape, Shape], ask: ask::excess, make: make::excess },
    Row { word: "tangents", fields: &[Shape, Shape], ask: ask::tangents, make: make::tangents },
    Row { word: "passage", fields: &[Shape, Shape, Shape], ask: ask::passage, make: make::passage },
    Row { word: "contact", fields: &[Shape, Shape, Direction, Direction], ask: ask::contact, make: drives::contact },
    Row { word: "tablet", fields: &[Reading, Reading], ask: ask::tablet, make: readings::corner },
    Row { word: "bookread", fields: &[Log, Name, Room], ask: ask::log_read, make: logs::to_read },
    Row { word: "bookadd", fields: &[Log, Name, Shape, Stores], ask: ask::log_add, make: logs::to_add },
    Row { word: "pack", fields: &[Bytes, Bytes, But, Stores], ask: ask::log_pack, make: logs::to_pack },
    Row { word: "entry", fields: &[Log, Position, Room], ask: ask::entry, make: around::entry },
    Row { word: "nearest", fields: &[Log, Shape, Excepted], ask: ask::nearest, make: around::nearest },
    Row { word: "gap", fields: &[Log, Shape], ask: ask::gap, make: around::gap },
    Row { word: "drive", fields: &[Log, Shape, Direction, Direction], ask: ask::drive, make: around::drive },
];

/// The calls of a host, each of which tells its whole line. The query program knows none of them.
#[rustfmt::skip]
pub const CALLS: &[Row<String>] = &[
    Row { word: "hjudge", fields: &[Bytes, Floor], ask: ask::host_judge, make: host::judge },
    Row { word: "hsum", fields: &[Bytes, Floor, Bytes, Floor, Output], ask: ask::host_sum, make: host::sum },
    Row { word: "hmerge", fields: &[Bytes, Floor, Bytes, Floor, Output], ask: ask::host_merge, make: host::merge },
    Row { word: "hrelation", fields: &[Bytes, Floor, Bytes, Floor], ask: ask::host_relation, make: host::relation },
];

pub fn find<Told>(table: &'static [Row<Told>], word: &[u8]) -> Option<&'static Row<Told>> {
    table.iter().find(|row| row.word.as_bytes() == word)
}
