//! A drive of straight legs: clear, or where it first meets what.
use crate::floor::Floor;
use crate::floor::drive::{first, swept};
use crate::given::{Corner, Edge, Given, Pair};
use crate::json::Json;
use crate::question::{Drive, OfTwo, Question};
use crate::serve::bounds;
use crate::serve::outgoing::{Bad, Response};
use crate::serve::plan::World;
use crate::serve::told::{self, Members, asked, field};
use crate::serve::wish::Wish;

/// Returns each leg of a drive, in order.
///
/// # Errors
/// The cart, the places, the floor or the changes cannot be used.
pub fn answer(world: &World, wish: &Wish) -> Result<Response, Bad> {
    let plan = world.plan(&wish.changes()?)?;
    let cart = plan.cart(&wish.name("cart")?)?;
    let floor = plan.floor(wish.floor()?, Some(cart))?;
    let places = wish.places("places")?;
    if places.len() > bounds::PLACES {
        return Err(Bad::request("the drive has too many places"));
    }
    let legs = places.windows(2).map(|ends| match *ends {
        [from, to] => Json::Object(leg(&floor, cart, [from, to])),
        _ => Json::Null,
    });
    let legs = Json::List(legs.collect());
    Ok(Response::json(&Json::Object(vec![("legs", legs)])))
}

/// A leg: its ends, what the cart passes over, and what it meets or is nearest to.
fn leg(floor: &Floor, cart: &Given, ends: [[i32; 2]; 2]) -> Members {
    let [from, to] = ends;
    let swept = swept(floor, cart, ends).ok().map(|swept| Given {
        name: cart.name.clone(),
        ..swept
    });
    // The library refuses a drive on a floor without obstacles. There is nothing to meet.
    let found = match floor.shapes.as_slice() {
        [] => Ok(None),
        _ => first(floor, cart, ends),
    };
    let mut members = vec![("from", from.into()), ("to", to.into())];
    members.extend(match found {
        Err(refused) => told::refused(refused),
        Ok(Some((position, _))) => floor
            .shape(position)
            .map_or_else(Vec::new, |obstacle| meets(obstacle, cart, ends)),
        Ok(None) => clear(floor, cart, ends, swept.as_ref()),
    });
    members.extend(swept.map(|way| ("swept", way.corners().into())));
    members
}

/// A leg on which an obstacle is met first. The question `contact` of the two says where; its line can be asked again.
fn meets(obstacle: &Given, cart: &Given, [from, to]: [[i32; 2]; 2]) -> Members {
    let fields = [obstacle, cart].map(field).join(" | ");
    let [here, there] = [from, to].map(|[x, y]| format!("{x} {y}"));
    let line = format!("contact | {fields} | {here} | {there}");
    let (a, b) = (obstacle.clone(), cart.clone());
    let pair = Pair { a, b };
    vec![
        ("state", "meets".into()),
        ("name", told::name(obstacle)),
        (
            "contact",
            asked(Question::Contact(Drive { pair, from, to })),
        ),
        ("lines", told::lines(vec![line])),
    ]
}

/// A leg that meets nothing, and what is nearest to it.
fn clear(floor: &Floor, cart: &Given, ends: [[i32; 2]; 2], swept: Option<&Given>) -> Members {
    let [from, to] = ends.map(Corner);
    let (way, number) = (Edge(from, to), floor.number);
    let among = match floor.shapes.len() {
        0 => format!("floor {number} has no shape that it could meet"),
        1 => "it meets nothing: the floor has one shape".to_string(),
        count => format!("it meets none of the {count} shapes of floor {number}"),
    };
    let said = format!("{cart} is clear all the way from {way}: {among}");
    let mut members = vec![("state", "clear".into()), ("sentence", said.into())];
    let near = swept.and_then(|swept| {
        let (position, _) = floor.nearest(swept, None).ok()?;
        Some((swept, floor.shape(position)?))
    });
    if let Some((swept, near)) = near {
        let (a, b) = (swept.clone(), near.clone());
        let question = Question::Two(Pair { a, b }, OfTwo::Clearance);
        members.extend([("name", told::name(near)), ("near", asked(question))]);
    }
    members
}
