//! `cocklesway nearest`: which obstacle is nearest to a place or a shape?
use super::ask::JSON;
use super::chosen::{AT, FLOOR, NOTHING, answered, named, number, place, say, whole_map};
use crate::answer::{Refused, made};
use crate::called::Called;
use crate::command::{Command, Console, Status, Trouble};
use crate::floor::Floor;
use crate::fraction::rounded;
use crate::given::{Corner, Given, Pair};
use crate::json::Json;
use crate::map::Map;
use crate::object;
use crate::options::{Arguments, Known, Misuse};
use crate::question::Making;
use crate::refusal::reason;

/// How it is called, and what it does.
pub const COMMAND: Command = Command {
    name: "nearest",
    takes: "MAP..",
    does: "says which obstacle of a floor is nearest to a place or to a shape",
    options: &[AT, SHAPE, FLOOR, JSON],
    page: "\
One answer of the library on the whole floor. A shape of the map is not compared with itself. An
outline has no place: with --at it is put there. Of several that are equally near the first of the map
is said.

    cocklesway nearest map.txt --floor 2 --at 3500,100
    cocklesway nearest map.txt --shape linen-store
    cocklesway nearest map.txt --floor 2 --shape cart --at 3500,100
",
    run,
};

const SHAPE: Known = Known {
    name: "--shape",
    value: Some("NAME"),
    does: "a shape of the map; an outline needs --at",
    many: false,
};

fn run(arguments: &Arguments, console: &mut Console<'_>) -> Result<Status, Trouble> {
    let json = arguments.has(JSON.name);
    let (session, _) = whole_map(&arguments.files, console, NOTHING)?;
    let map = session.map();
    let asked = asked(arguments, map)?;
    let (shape, label) = answered(console, json, asked.shape(), reason)?;
    let of = asked.named.as_ref().filter(|shape| shape.floor.is_none());
    let floor = answered(console, json, Floor::of(map, asked.floor, of), reason)?;
    let found = floor.nearest(&shape, floor.position(&shape));
    let found = answered(console, json, found, |refused| floor.reason(refused))?;
    let called = Called {
        shape: &shape,
        label,
    };
    say(console, json, &floor.neighbour(&called, found), || {
        members(&floor, &shape, found)
    })?;
    Ok(Status::Fine)
}

/// What is asked: a shape by its name, or a place, or an outline at a place.
struct Asked {
    named: Option<Given>,
    at: Option<[i32; 2]>,
    floor: u16,
}

fn asked(arguments: &Arguments, map: &Map) -> Result<Asked, Misuse> {
    let at = arguments.value(AT.name);
    let at = at.map(|value| place(AT.name, value)).transpose()?;
    let shape = arguments.value(SHAPE.name);
    let named = shape
        .map(|value| named(SHAPE.name, value, map))
        .transpose()?;
    let own = named.as_ref().and_then(|shape| shape.floor);
    one_thing(named.as_ref(), at)?;
    let floor = match (own, arguments.has(FLOOR.name)) {
        (Some(own), false) => own,
        _ => number(arguments, map)?,
    };
    if let (Some(shape), Some(own)) = (&named, own.filter(|own| *own != floor)) {
        return Err(Misuse::Other(format!(
            "{shape} is on floor {own}, and not on floor {floor}"
        )));
    }
    Ok(Asked { named, at, floor })
}

/// Whether exactly one thing with a place is asked about.
fn one_thing(named: Option<&Given>, at: Option<[i32; 2]>) -> Result<(), Misuse> {
    let words = match (named, at) {
        (None, None) => format!("{} X,Y or {} NAME is needed", AT.name, SHAPE.name),
        (Some(shape), None) if shape.floor.is_none() => format!(
            "{shape} is an outline, which is nowhere: {} X,Y puts it there",
            AT.name
        ),
        (Some(shape), Some(_)) if shape.floor.is_some() => format!(
            "{shape} has its place already: leave out {} or {}",
            AT.name, SHAPE.name
        ),
        _ => return Ok(()),
    };
    Err(Misuse::Other(words))
}

impl Asked {
    /// The shape that is asked about, and what sentences call it.
    fn shape(&self) -> Result<(Given, String), Refused> {
        let point = self.at.map(|at| Given {
            name: None,
            numbers: at.into(),
            floor: Some(self.floor),
        });
        match (&self.named, point) {
            (Some(outline), Some(point)) => {
                let label = format!("{outline} at {}", Corner(self.at.unwrap_or_default()));
                let (a, b) = (outline.clone(), point);
                Ok((made(Making::At(Pair { a, b }))?, label))
            }
            (Some(shape), None) => Ok((shape.clone(), shape.to_string())),
            (None, point) => {
                let point = point.unwrap_or(Given {
                    name: None,
                    numbers: [].into(),
                    floor: Some(self.floor),
                });
                Ok((point.clone(), point.to_string()))
            }
        }
    }
}

fn members(
    floor: &Floor,
    shape: &Given,
    (position, nearest): (usize, Option<cocklesway::Nearest>),
) -> Vec<(&'static str, Json)> {
    let near = floor.shape(position);
    let mut members = vec![
        ("floor", u64::from(floor.number).into()),
        ("shape", object::shape_of(shape)),
        (
            "name",
            near.map_or(Json::Null, |near| near.to_string().into()),
        ),
    ];
    let places = near.map(|near| object::clearance([shape, near], nearest, rounded(nearest)));
    members.extend(places.into_iter().flatten());
    members
}
