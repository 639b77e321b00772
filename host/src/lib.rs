//! Exact geometry of convex shapes for delivery carts, in whole millimetres on flat floors. Every question is
//! answered by a function that is proved to meet its definition, refusals and outputs included; this package passes
//! slices to these functions and takes their replies apart.
//!
//! A [`Shape`] is a list of corners on a floor. Any list may be asked of: a question judges its lists first, and
//! answers or says why it refuses ([`Refusal`]). On refusal nothing is written.
//!
//! ```
//! use cocklesway::{Refusal, Relation, Shape, grow, relation};
//!
//! let bed = Shape::new(&[[0, 0], [2000, 0], [2000, 900], [0, 900]], 3);
//! let cart = Shape::new(&[[-200, -250], [300, -250], [500, 0], [300, 250], [-200, 250]], 3);
//!
//! // Where may the cart stand? Where its origin is apart from the bed grown by its outline.
//! let mut out = [[0; 2]; 16];
//! let grown = grow(bed, cart, &mut out)?;
//! let place = Shape::new(&[[-550, 0]], 3);
//! assert_eq!(relation(place, grown)?.relation, Relation::Apart);
//!
//! let upstairs = Shape::new(&[[-550, 0]], 4);
//! assert_eq!(relation(upstairs, grown), Err(Refusal::Floors));
//! # Ok::<(), Refusal>(())
//! ```
//!
//! | question | function |
//! |---|---|
//! | one shape | [`judge`], [`furthest`], [`mirror`], [`length`], [`width`], [`area`], [`least_box`] |
//! | two shapes | [`sum`], [`merge`], [`grow`], [`relation`], [`inside`], [`clearance`], [`greatest`], [`tangents`] |
//! | a changed shape and the old one | [`excess`] |
//! | two obstacles and a cart | [`passage`] |
//! | an obstacle and a cart on a straight drive | [`contact`] |
//! | why they are apart | [`offer`], [`find`] |
//! | a sum in parts | [`Walk::begin`], [`Walk::part`] |
//! | points in any order | [`sweep`] |
//! | a ring as people draw it | [`ring`] |
//! | readings of a tablet | [`tablet`] |
//! | a log of shapes by name | [`Book`], [`log_read`], [`log_pack`], [`log_entry`] |
//! | the shapes of a floor in a log | [`log_nearest`], [`log_gap`], [`log_contact`] |
//! | corners as bytes | [`bytes`] |
//!
//! The package needs `core` alone. No call allocates, keeps anything, or panics.
//!
//! # Building
//!
//! `.ci/archive` proves the calls and writes `target/staticlib/libcocklesway.a`, which this package links. The
//! environment variable `COCKLESWAY_LIB_DIR` names another folder that has the archive; a relative one counts from
//! where cargo is called.
#![no_std]
#![deny(missing_docs, unsafe_code)]
#![warn(
    clippy::arithmetic_side_effects,
    clippy::expect_used,
    clippy::indexing_slicing,
    clippy::panic,
    clippy::pedantic,
    clippy::unwrap_used
)]

mod answers;
mod archive;
mod book;
pub mod bytes;
mod limits;
mod questions;
mod refusal;
mod reply;
mod shape;
mod tablet;
#[cfg(test)]
mod tests;
mod walk;

pub use answers::{
    Across, Area, Beyond, Clearance, Contact, Corners, Drive, Excess, Furthest, Gap, Greatest,
    Inside, LeastBox, Length, Line, Meeting, Nearest, Neighbour, Offer, Passage, Relation,
    Separator, Standing, Tangents, Way, Width,
};
pub use book::{Addition, Book, log_contact, log_entry, log_gap, log_nearest, log_pack, log_read};
pub use limits::{Limits, limits, version};
pub use questions::{
    area, clearance, contact, excess, find, furthest, greatest, grow, inside, judge, least_box,
    length, merge, mirror, offer, passage, relation, ring, sum, sweep, tangents, width,
};
pub use refusal::{Axis, Refusal, Which};
pub use shape::Shape;
pub use tablet::{Reading, tablet};
pub use walk::{Part, Walk};
