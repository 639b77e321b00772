//! `cocklesway gaps`: the narrow gaps of a floor.
use super::ask::JSON;
use super::chosen::{BELOW, CART, FLOOR, NOTHING, answered, floor, limit, named, say, whole_map};
use crate::command::{Command, Console, Status, Trouble};
use crate::floor::gaps::{Gap, Solids};
use crate::fraction::rounded;
use crate::given::Given;
use crate::json::Json;
use crate::object;
use crate::options::{Arguments, Known};
use crate::progress::Progress;

/// How it is called, and what it does.
pub const COMMAND: Command = Command {
    name: "gaps",
    takes: "MAP..",
    does: "lists the gaps of a floor that are narrower than a limit, the narrowest first",
    options: &[FLOOR, CART, BELOW, APART, JSON],
    page: "\
Without --below it is the narrowest gap alone: one answer of the library on the whole floor. With
--below it is every pair of obstacles whose gap is less, the narrowest first. Each gap is an answer of
the library; going through the pairs and putting them in order is a loop of this program. Obstacles
that have points in common, such as walls that meet, have a gap of 0 and come first; --apart leaves
them out, also in a loop of this program.

With --cart a gap is what is left to the cart: the distance between both obstacles grown by its
outline. Where they are not apart the cart cannot pass straight between the two, and the sentence says
how wide the gap itself is, and what the cart needs in that direction. That sum and its rounding are
of this program.

    cocklesway gaps map.txt --floor 2 --below 900
    cocklesway gaps map.txt --floor 2 --cart cart --below 1
",
    run,
};

/// How many pairs take the library about a second in one question.
const MANY: usize = 500_000;

const APART: Known = Known {
    name: "--apart",
    value: None,
    does: "without obstacles that have points in common",
    many: false,
};

fn run(arguments: &Arguments, console: &mut Console<'_>) -> Result<Status, Trouble> {
    let json = arguments.has(JSON.name);
    let (session, _) = whole_map(&arguments.files, console, NOTHING)?;
    let map = session.map();
    let cart = arguments
        .value(CART.name)
        .map(|value| named(CART.name, value, map))
        .transpose()?;
    let limit = limit(arguments)?;
    let floor = floor(arguments, console, map, cart.as_ref())?;
    let solids = Solids::new(&floor, cart.as_ref());
    let solids = answered(console, json, solids, |refused| floor.reason(refused))?;
    let gaps = listed(console, json, &solids, limit, arguments.has(APART.name))?;
    for gap in &gaps {
        say(console, json, &solids.sentence(*gap), || {
            members(&solids, *gap)
        })?;
    }
    match limit {
        Some(limit) if !json => console.say(&summary(&solids, &gaps, limit))?,
        _ => {}
    }
    Ok(Status::Fine)
}

/// The gaps below a limit; without one the narrowest. Fewer than two shapes are refused, whatever the limit is.
fn listed(
    console: &mut Console<'_>,
    json: bool,
    solids: &Solids<'_>,
    limit: Option<u64>,
    only_apart: bool,
) -> Result<Vec<Gap>, Trouble> {
    let (mut progress, of) = (Progress::new("pairs"), solids.pairs());
    let gaps = if of == 0 || (limit.is_none() && !only_apart) {
        let shapes = solids.floor.shapes.len();
        if of > MANY {
            Progress::ahead(console, &format!("one question on all {shapes} shapes"));
        }
        solids.narrowest().map(|gap| vec![gap])
    } else {
        let most = limit.unwrap_or(u64::MAX);
        solids.below(most, only_apart, |done| progress.at(console, done, of))
    };
    let mut gaps = answered(console, json, gaps, |refused| solids.floor.reason(refused))?;
    gaps.truncate(if limit.is_some() { gaps.len() } else { 1 });
    Ok(gaps)
}

/// The members of a gap: floor, cart, both names, and what clearance answers of what it is measured between.
fn members(solids: &Solids<'_>, gap: Gap) -> Vec<(&'static str, Json)> {
    let name = |shape: &Given| Json::from(shape.to_string());
    let names = gap
        .of
        .map(|at| solids.floor.shape(at).map_or(Json::Null, name));
    let mut members = vec![
        ("floor", u64::from(solids.floor.number).into()),
        ("cart", solids.cart.map_or(Json::Null, name)),
        ("names", Json::List(names.to_vec())),
    ];
    if let Some(pair) = solids.measured(gap) {
        members.extend(object::clearance(
            [&pair.a, &pair.b],
            gap.nearest,
            rounded(gap.nearest),
        ));
    }
    members
}

/// How many pairs have so narrow a gap.
fn summary(solids: &Solids<'_>, gaps: &[Gap], limit: u64) -> String {
    let (floor, pairs) = (solids.floor.number, solids.pairs());
    let count = gaps.len();
    let none = gaps.iter().filter(|gap| gap.nearest.is_none()).count();
    let of = match solids.cart {
        Some(cart) => {
            format!("leave {cart} less than {limit} mm; it cannot pass at {none} of these")
        }
        None => format!("have a gap of less than {limit} mm; {none} of these are not apart"),
    };
    format!("floor {floor}: {count} of {pairs} pairs {of}")
}
