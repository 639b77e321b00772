//! `cocklesway stands`: what does a cart meet at a place?
use super::ask::JSON;
use super::chosen::{AT, CART, FLOOR, NOTHING, answered, cart, floor, place, say, whole_map};
use crate::command::{Command, Console, Status, Trouble};
use crate::floor::Floor;
use crate::floor::stand::{Stand, stand};
use crate::fraction::rounded;
use crate::given::Given;
use crate::json::Json;
use crate::object;
use crate::options::{Arguments, Misuse};
use cocklesway::Relation;

/// How it is called, and what it does.
pub const COMMAND: Command = Command {
    name: "stands",
    takes: "MAP..",
    does: "says whether a cart at a place is free, or which obstacles it touches or overlaps",
    options: &[CART, AT, FLOOR, JSON],
    page: "\
The place is that of the cart's origin. That the cart is free is one answer of the library on the whole
floor, with the nearest obstacle. If it is not, each obstacle is asked by itself, in a loop of this
program.

    cocklesway stands map.txt --cart cart --at 3500,100
",
    run,
};

fn run(arguments: &Arguments, console: &mut Console<'_>) -> Result<Status, Trouble> {
    let json = arguments.has(JSON.name);
    let (session, _) = whole_map(&arguments.files, console, NOTHING)?;
    let map = session.map();
    let cart = cart(arguments, map)?;
    let missing = || Misuse::Other(format!("a place is needed: {} X,Y", AT.name));
    let at = place(AT.name, arguments.value(AT.name).ok_or_else(missing)?)?;
    let floor = floor(arguments, console, map, Some(&cart))?;
    let found = answered(console, json, stand(&floor, &cart, at), |refused| {
        floor.reason(refused)
    })?;
    say(console, json, &found.sentence(&floor), || {
        members(&floor, &found)
    })?;
    Ok(Status::Fine)
}

fn members(floor: &Floor, found: &Stand) -> Vec<(&'static str, Json)> {
    let name = |at: usize| {
        floor
            .shape(at)
            .map_or(Json::Null, |shape| shape.to_string().into())
    };
    let names = |relation| Json::List(found.met_so(relation).map(name).collect());
    let mut members = vec![
        ("floor", u64::from(floor.number).into()),
        ("cart", object::shape_of(&found.there)),
        ("state", found.state().into()),
        ("overlaps", names(Relation::Overlapping)),
        ("touches", names(Relation::Touching)),
    ];
    let (near, nearest) = found.nearest;
    members.push(("nearest", name(near)));
    let shapes = floor.shape(near).map(|near: &Given| [&found.there, near]);
    members.extend(
        shapes
            .into_iter()
            .flat_map(|shapes| object::clearance(shapes, nearest, rounded(nearest))),
    );
    members
}
