//! What a line gave its question, by kind: a row that lists the kind has it.

use super::fields::Value;
use crate::judge::judge;
use crate::parts::{Call, State};
use crate::plane::{Point, Shape};
use crate::refusal::Refusal;
use crate::tablet::Reading;

/// The values of the fields, in order. Fields that were left out have none.
#[derive(Debug, PartialEq, Eq)]
pub struct Given(pub Vec<Value>);

impl Given {
    /// All shapes and the floor that they are on; or the first refusal of the first list that is
    /// none; or 13 if they are on different floors.
    pub fn shapes<const COUNT: usize>(&self) -> Result<([Shape; COUNT], u16), Refusal> {
        let judged = (1..)
            .zip(self.lists())
            .map(|(number, (list, _))| judge(list, number));
        let shapes: Vec<Shape> = judged.collect::<Result<_, _>>()?;
        let (_, floor) = self.list();
        if self.lists().any(|(_, other)| other != floor) {
            return Err(Refusal::plain(13));
        }
        let shapes = shapes
            .try_into()
            .expect("the row has this number of shapes");
        Ok((shapes, floor))
    }

    /// The list of the first shape, not judged, and its floor.
    pub fn list(&self) -> (&[i32], u16) {
        self.lists().next().expect("the row has a shape")
    }

    fn lists(&self) -> impl Iterator<Item = (&[i32], u16)> {
        self.0.iter().filter_map(|value| match value {
            Value::Shape(list, floor) => Some((&list[..], *floor)),
            _ => None,
        })
    }

    pub fn readings<const COUNT: usize>(&self) -> [Reading; COUNT] {
        let readings = self.0.iter().filter_map(|value| match value {
            Value::Reading(reading) => Some(*reading),
            _ => None,
        });
        let found: Vec<Reading> = readings.collect();
        found
            .try_into()
            .expect("the row has this number of readings")
    }

    pub fn direction(&self) -> Point {
        self.directions().next().expect("the row has a direction")
    }

    /// Places are written as directions are.
    pub fn places<const COUNT: usize>(&self) -> [Point; COUNT] {
        let found: Vec<Point> = self.directions().collect();
        found.try_into().expect("the row has these places")
    }

    fn directions(&self) -> impl Iterator<Item = Point> {
        self.0.iter().filter_map(|value| match value {
            Value::Direction(direction) => Some(*direction),
            _ => None,
        })
    }

    pub fn position(&self) -> usize {
        let found = self.0.iter().find_map(|value| match value {
            Value::Position(position) => Some(*position),
            _ => None,
        });
        found.expect("the row has a position")
    }

    pub fn walk(&self) -> State {
        let found = self.0.iter().find_map(|value| match value {
            Value::Walk(state) => Some(*state),
            _ => None,
        });
        found.expect("the row has a walk")
    }

    pub fn calls(&self) -> &[Call] {
        let found = self.0.iter().find_map(|value| match value {
            Value::Calls(calls) => Some(calls),
            _ => None,
        });
        found.expect("the row has calls")
    }

    /// The room in numbers, if the line names one.
    pub fn room(&self) -> Option<usize> {
        self.0.iter().find_map(|value| match value {
            Value::Room(room) => Some(*room),
            _ => None,
        })
    }

    pub fn log(&self) -> &[u8] {
        let found = self.0.iter().find_map(|value| match value {
            Value::Log(log) => Some(log),
            _ => None,
        });
        found.expect("the row has a log")
    }

    /// The bytes of all lists of a host's call.
    pub fn bytes<const COUNT: usize>(&self) -> [&[u8]; COUNT] {
        let lists = self.0.iter().filter_map(|value| match value {
            Value::Bytes(bytes) => Some(&bytes[..]),
            _ => None,
        });
        let found: Vec<&[u8]> = lists.collect();
        found.try_into().expect("the row has this number of lists")
    }

    /// Their floors.
    pub fn floors<const COUNT: usize>(&self) -> [u32; COUNT] {
        let floors = self.0.iter().filter_map(|value| match value {
            Value::Floor(floor) => Some(*floor),
            _ => None,
        });
        let found: Vec<u32> = floors.collect();
        found.try_into().expect("the row has this number of floors")
    }

    /// How many bytes of output a host's call is lent.
    pub fn output(&self) -> usize {
        let found = self.0.iter().find_map(|value| match value {
            Value::Output(bytes) => Some(*bytes),
            _ => None,
        });
        found.expect("the row has an output")
    }

    pub fn name(&self) -> u16 {
        let found = self.0.iter().find_map(|value| match value {
            Value::Name(name) => Some(*name),
            _ => None,
        });
        found.expect("the row has a name")
    }

    /// The name that is left out.
    pub fn but(&self) -> Option<u16> {
        let found = self.0.iter().find_map(|value| match value {
            Value::But(name) => Some(*name),
            _ => None,
        });
        found.flatten()
    }

    /// The most stores of an addition or a packing; any number if the line names none.
    pub fn stores(&self) -> usize {
        let found = self.0.iter().find_map(|value| match value {
            Value::Stores(stores) => Some(*stores),
            _ => None,
        });
        found.unwrap_or(usize::MAX)
    }
}
