//! A cart at a place of a floor, and the zones that its origin keeps out of.
use crate::answer::Refused;
use crate::floor::stand::{Stand, placed, stand};
use crate::floor::{Floor, grown};
use crate::given::{Given, Pair};
use crate::json::Json;
use crate::object::relation;
use crate::question::{OfTwo, Question};
use crate::serve::outgoing::{Bad, Response};
use crate::serve::plan::World;
use crate::serve::told::{self, Members, asked};
use crate::serve::wish::Wish;
use crate::session::Outcome;
use cocklesway::Relation;

/// Returns whether a cart is free at a place, and what is nearest to it there.
///
/// # Errors
/// The cart, the place, the floor or the changes cannot be used.
pub fn answer(world: &World, wish: &Wish) -> Result<Response, Bad> {
    let plan = world.plan(&wish.changes()?)?;
    let cart = plan.cart(&wish.name("cart")?)?;
    let floor = plan.floor(wish.floor()?, Some(cart))?;
    let at = wish.place("at")?;
    let mut members: Members = vec![("at", at.into())];
    members.extend(state(&floor, cart, at).unwrap_or_else(told::refused));
    Ok(Response::json(&Json::Object(members)))
}

/// The words of a cart's state, and what is nearest or met.
fn state(floor: &Floor, cart: &Given, at: [i32; 2]) -> Result<Members, Refused> {
    let (word, there, near) = if floor.shapes.is_empty() {
        ("alone", placed(floor, cart, at)?, Vec::new())
    } else {
        let found = stand(floor, cart, at)?;
        let near = near(floor, &found);
        (found.state(), found.there, near)
    };
    let there = Given {
        name: cart.name.clone(),
        ..there
    };
    let met = near.iter().filter(|(_, how)| *how != Relation::Apart);
    let met = Json::List(met.map(of_met).collect());
    let ([x, y], number) = (at, floor.number);
    let first = format!("there = at | {} | @{number} {x} {y}", told::field(cart));
    let line = |(shape, how): &(&Given, Relation)| {
        format!("{} | there | {}", about(*how).word(), told::field(shape))
    };
    let lines = [first].into_iter().chain(near.iter().map(line)).collect();
    let near = near.into_iter().map(|(shape, how)| {
        let (a, b) = (there.clone(), shape.clone());
        asked(Question::Two(Pair { a, b }, about(how)))
    });
    Ok(vec![
        ("corners", there.corners().into()),
        ("state", word.into()),
        ("near", Json::List(near.collect())),
        ("meets", met),
        ("lines", told::lines(lines)),
    ])
}

/// What a cart meets at its place, or else the nearest.
fn near<'a>(floor: &'a Floor, found: &Stand) -> Vec<(&'a Given, Relation)> {
    let (position, place) = found.nearest;
    let nearest = place.map(|_| (position, Relation::Apart));
    let near = found.met.iter().copied().chain(nearest);
    near.filter_map(|(at, how)| Some((floor.shape(at)?, how)))
        .collect()
}

/// What is asked of a cart and what is near to it.
fn about(how: Relation) -> OfTwo {
    match how {
        Relation::Apart => OfTwo::Clearance,
        _ => OfTwo::Relation,
    }
}

fn of_met((shape, how): &(&Given, Relation)) -> Json {
    Json::Object(vec![
        ("name", told::name(shape)),
        ("relation", relation(*how).into()),
    ])
}

/// Returns each shape of a floor grown by a cart's outline.
///
/// # Errors
/// The cart, the floor or the changes cannot be used.
pub fn zones(world: &World, wish: &Wish) -> Result<Response, Bad> {
    let plan = world.plan(&wish.changes()?)?;
    let cart = plan.cart(&wish.name("cart")?)?;
    let floor = plan.floor(wish.floor()?, Some(cart))?;
    let zones = floor.shapes.iter().map(|obstacle| {
        let zone = match grown(obstacle, cart) {
            Ok(grown) => ("corners", grown.corners().into()),
            Err(refused) => ("refused", told::told(Outcome::Refused(refused))),
        };
        Json::Object(vec![("name", told::name(obstacle)), zone])
    });
    let zones = Json::List(zones.collect());
    Ok(Response::json(&Json::Object(vec![("zones", zones)])))
}
