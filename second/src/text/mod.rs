//! Questions as text, one a line: `word | field | field`. What is no question has a reason.
//!
//!     lines         which lines of an input want an answer
//!     fields        the kinds of fields, and how each is read
//!     given         what was read, as the questions ask for it
//!     unreadable    why a line is no question

pub mod fields;
pub mod given;
pub mod lines;
pub mod unreadable;
