//! The map desk: shapes of a floor by their names, questions about them, and pictures. Every answer comes from the
//! proved library, the package `cocklesway`. What is here reads lines, keeps names, and puts answers into words.
//!
//! | module | subject |
//! |---|---|
//! | [`source`], [`lines`], [`fields`], [`words`] | files read, taken apart into lines, fields and words, and values |
//! | [`unit`] | lengths read exactly |
//! | [`fault`], [`place`], [`escape`] | why a line cannot be read, and where it is |
//! | [`name`], [`given`], [`map`] | names, shapes as they are given, and the shapes of the names |
//! | [`table`], [`question`], [`answer`] | the questions; the library asked |
//! | [`session`] | lines in their order: definitions, questions, and what came of each |
//! | [`sentence`], [`refusal`], [`whole_floor`], [`report`] | answers and refusals in words |
//! | [`called`], [`distance`], [`extent`] | what sentences call shapes, places, distances and areas |
//! | [`floor`], [`fraction`] | all obstacles of a floor asked at once; distances compared |
//! | [`changes`], [`settled`] | two maps compared, and which answers stay |
//! | [`book`] | a floor book on disk |
//! | [`json`], [`object`] | answers as JSON |
//! | [`picture`], [`formats`] | pictures; WKT and `GeoJSON` |
//! | [`serve`] | a map in a browser |
//! | [`options`], [`command`], [`commands`], [`help`], [`progress`] | the program |
#![forbid(unsafe_code)]
#![deny(missing_docs)]
#![warn(
    clippy::expect_used,
    clippy::indexing_slicing,
    clippy::panic,
    clippy::pedantic,
    clippy::unwrap_used
)]
#![allow(clippy::format_push_string)]

pub mod answer;
pub mod book;
pub mod called;
pub mod changes;
pub mod command;
pub mod commands;
pub mod distance;
pub mod escape;
pub mod extent;
pub mod fault;
pub mod fields;
pub mod floor;
pub mod formats;
pub mod fraction;
pub mod given;
pub mod help;
pub mod json;
pub mod lines;
pub mod map;
pub mod name;
pub mod object;
pub mod options;
pub mod picture;
pub mod place;
pub mod progress;
pub mod question;
pub mod refusal;
pub mod report;
pub mod sentence;
pub mod serve;
pub mod session;
pub mod settled;
pub mod source;
pub mod table;
pub mod unit;
pub mod whole_floor;
pub mod words;
