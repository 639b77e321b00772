//! The independent second program's parts: document 01's and 02's questions by brute force, as text and,
//! for a host, over bytes.

pub mod answer;
mod around;
mod ask;
pub mod cases;
mod clearance;
pub mod combine;
pub mod compare;
mod contact;
mod direction;
mod excess;
pub mod histories;
pub mod host;
mod hull;
pub mod judge;
mod log;
pub mod make;
mod measure;
mod pack;
mod parts;
mod passage;
pub mod plane;
mod questions;
pub mod refusal;
mod ring;
pub mod separation;
#[cfg(test)]
mod strips;
mod sweep;
mod tablet;
mod tangents;
mod text;
mod wide;
