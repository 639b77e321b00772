//! `cocklesway drive`: what does a cart meet on straight drives?
use super::ask::JSON;
use super::chosen::{CART, FLOOR, answered, cart, floor, one_map, place, say};
use crate::command::{Command, Console, Status, Trouble};
use crate::floor::Floor;
use crate::floor::drive::{Found, Leg, leg};
use crate::fraction::rounded;
use crate::json::Json;
use crate::object;
use crate::options::{Arguments, Misuse};
use crate::progress::Progress;
use std::ffi::OsString;

/// How it is called, and what it does.
pub const COMMAND: Command = Command {
    name: "drive",
    takes: "MAP X,Y X,Y ..",
    does: "says of each straight leg of a way whether a cart is clear, or what it meets first, and where",
    options: &[CART, FLOOR, JSON],
    page: "\
The places are those of the cart's origin. The cart drives straight from each to the next and does not
turn. What it meets first on a leg is one answer of the library on the whole floor; if it meets nothing,
so is the nearest obstacle to all that it passes over. Going from leg to leg is a loop of this program.
Touching is meeting. Every leg is answered, those after a contact too.

    cocklesway drive map.txt --cart cart 0,0 3000,0 3000,2500
",
    run,
};

fn run(arguments: &Arguments, console: &mut Console<'_>) -> Result<Status, Trouble> {
    let json = arguments.has(JSON.name);
    let (session, places) = one_map(arguments, console)?;
    let map = session.map();
    let places = places_of(places)?;
    let cart = cart(arguments, map)?;
    let floor = floor(arguments, console, map, Some(&cart))?;
    let (mut progress, mut met) = (Progress::new("legs"), Vec::new());
    let legs = places.iter().zip(places.iter().skip(1));
    for (number, (from, to)) in (1..).zip(legs) {
        let found = leg(&floor, &cart, [*from, *to]);
        let found = answered(console, json, found, |refused| floor.reason(refused))?;
        met.extend((!found.is_clear()).then_some(number));
        let sentence = format!("leg {number}: {}", found.sentence(&floor, &cart));
        say(console, json, &sentence, || members(&floor, number, &found))?;
        progress.at(console, number, places.len() - 1);
    }
    if !json {
        let words = match met.first() {
            None => format!("{cart} is clear all the way"),
            Some(number) => format!("{cart} is stopped on leg {number}"),
        };
        console.say(&words)?;
    }
    Ok(Status::Fine)
}

/// At least two places.
fn places_of(words: &[OsString]) -> Result<Vec<[i32; 2]>, Misuse> {
    if words.len() < 2 {
        let words = "two places or more are needed after the map: MAP X,Y X,Y ..";
        return Err(Misuse::Other(words.to_string()));
    }
    words.iter().map(|word| place("drive", word)).collect()
}

fn members(floor: &Floor, number: usize, leg: &Leg) -> Vec<(&'static str, Json)> {
    let name = |at: usize| {
        floor
            .shape(at)
            .map_or(Json::Null, |shape| shape.to_string().into())
    };
    let mut members = vec![
        ("floor", u64::from(floor.number).into()),
        ("leg", number.into()),
        ("from", leg.way.0.0.into()),
        ("to", leg.way.1.0.into()),
        ("meets", (!leg.is_clear()).into()),
    ];
    match &leg.found {
        Found::Met(position, meeting) => members.extend([
            ("name", name(*position)),
            ("numerator", meeting.numerator.into()),
            ("denominator", meeting.denominator.into()),
            ("safe", meeting.safe.into()),
        ]),
        Found::Clear((position, nearest), swept) => {
            members.push(("name", name(*position)));
            let near = floor.shape(*position).map(|near| [swept, near]);
            let places = near.map(|shapes| object::clearance(shapes, *nearest, rounded(*nearest)));
            members.extend(places.into_iter().flatten());
        }
    }
    members
}
