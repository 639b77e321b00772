//! The table "When the map desk says no" of document 01: the limits, and a refusal with what it carries.

use std::fmt;

pub const MOST_CORNERS: usize = 1024;
/// Of a sweep (document 02, W10).
pub const MOST_POINTS: usize = 1024;
pub const MOST_COORDINATE: i64 = 1_000_000;
pub const MOST_DIRECTION: i64 = 2_000_000;

/// A number of the table. 1 to 5 say which shape; 4 also gives edge and corner. Those of a reading
/// say which part of its corner, and that of a log the place of a byte.
#[derive(Clone, Copy, Debug, PartialEq, Eq)]
pub struct Refusal {
    pub number: u8,
    pub shape: Option<usize>,
    pub broken: Option<(usize, usize)>,
    pub part: Option<&'static str>,
    pub place: Option<usize>,
}

impl Refusal {
    /// A number that carries nothing.
    pub fn plain(number: u8) -> Refusal {
        Refusal {
            number,
            shape: None,
            broken: None,
            part: None,
            place: None,
        }
    }

    /// 1, 2, 3 or 5 of the first or the second shape.
    pub fn of_shape(number: u8, shape: usize) -> Refusal {
        Refusal {
            shape: Some(shape),
            ..Refusal::plain(number)
        }
    }

    /// 4 with the first edge, then the first corner, that breaks the left rule.
    pub fn left_rule(shape: usize, broken: (usize, usize)) -> Refusal {
        Refusal {
            broken: Some(broken),
            ..Refusal::of_shape(4, shape)
        }
    }

    /// 17, 18 or 3 of the reading that is x or y.
    pub fn of_part(number: u8, part: &'static str) -> Refusal {
        Refusal {
            part: Some(part),
            ..Refusal::plain(number)
        }
    }

    /// 15 with the place of the first bad record.
    pub fn damaged(place: usize) -> Refusal {
        Refusal {
            place: Some(place),
            ..Refusal::plain(15)
        }
    }
}

impl fmt::Display for Refusal {
    fn fmt(&self, f: &mut fmt::Formatter<'_>) -> fmt::Result {
        write!(f, "no {}", self.number)?;
        if let Some(shape) = self.shape {
            write!(f, " shape {shape}")?;
        }
        if let Some((edge, corner)) = self.broken {
            write!(f, " edge {edge} corner {corner}")?;
        }
        if let Some(part) = self.part {
            write!(f, " part {part}")?;
        }
        if let Some(place) = self.place {
            write!(f, " place {place}")?;
        }
        Ok(())
    }
}
