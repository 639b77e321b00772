//! Answers over all shapes of a log on a floor, and their refusals, in plain words. A shape of a log is called by the
//! name of its record.
use crate::answer::shape_of;
use crate::called::{Called, between};
use crate::given::{Corner, Edge, Given, Pair};
use crate::question::{Around, Making, Narrowest, Past, Question};
use crate::sentence::on_way;
use cocklesway::{Drive, Gap, Neighbour, Refusal};

/// Returns which shape of a log is nearest on its floor.
#[must_use]
pub fn neighbour(around: &Around, found: Neighbour, near: &Given) -> String {
    let Around { shape, but, .. } = around;
    let record = format!("record {}", found.name);
    let on = format!("on floor {}{}", found.floor, without(*but));
    let Some(nearest) = found.nearest else {
        return format!(
            "{record} is the first that meets {shape} {on}: they have points in common"
        );
    };
    let label = record.clone();
    let (distance, places) = between(
        [&Called::own(shape), &Called { shape: near, label }],
        nearest,
    );
    format!("{record} is nearest to {shape} {on}: {distance}, between {places}")
}

/// Returns which two shapes of a log, both grown by the cart, have the narrowest gap.
#[must_use]
pub fn gap(Narrowest { cart, .. }: &Narrowest, found: Gap, [one, other]: &[Given; 2]) -> String {
    let [first, second] = found.names;
    let records = format!("records {first} and {second}");
    let floor = found.floor;
    let Some(nearest) = found.nearest else {
        return format!(
            "{records} have no gap on floor {floor}, grown by {cart}: they are the first two that are not apart"
        );
    };
    let grown = |shape, name| Called {
        shape,
        label: format!("grown record {name}"),
    };
    let (distance, places) = between([&grown(one, first), &grown(other, second)], nearest);
    format!(
        "{records} have the narrowest gap on floor {floor}, grown by {cart}: {distance}, between {places}"
    )
}

/// Returns which shape of a log a cart first meets on its way.
#[must_use]
pub fn first_met(Past { cart, from, to, .. }: &Past, found: Drive) -> String {
    let way = Edge(Corner(*from), Corner(*to));
    let floor = found.floor;
    let Some((name, meeting)) = found.first else {
        return format!("{cart} is clear of all shapes on floor {floor} all the way from {way}");
    };
    format!(
        "record {name} is the first that {cart} meets on floor {floor}: {}",
        on_way(meeting, way)
    )
}

/// ` without record 3`; nothing if none is left out.
fn without(but: Option<u16>) -> String {
    but.map_or(String::new(), |name| format!(" without record {name}"))
}

/// Returns why there are too few shapes.
#[must_use]
pub fn too_few(question: &Question) -> Option<String> {
    let floor = |shape: &Given| shape.floor.unwrap_or(0);
    match question {
        Question::Make(Making::Entry { position, .. }, _) => Some(format!(
            "the log has no entry {position}: entries count from 0, one for each name"
        )),
        Question::Nearest(Around { shape, but, .. }) => Some(format!(
            "the log{} has no shape on floor {}",
            without(*but),
            floor(shape)
        )),
        Question::Drive(Past { cart, .. }) => {
            Some(format!("the log has no shape on floor {}", floor(cart)))
        }
        Question::Gap(Narrowest { cart, .. }) => Some(format!(
            "the log has fewer than two shapes on floor {}",
            floor(cart)
        )),
        _ => None,
    }
}

/// Returns the first record on the cart's floor whose shape is refused so when it is grown, and what was to be grown.
#[must_use]
pub fn refused_when_grown(log: &[u8], cart: &Given, refusal: Refusal) -> Option<(u16, Pair)> {
    let mut out = vec![[0; 2]; cocklesway::limits().corners];
    let pairs = (0..).map_while(|position| {
        let (name, shape) = cocklesway::log_entry(log, position, &mut out).ok()?;
        let a = Given {
            name: None,
            numbers: shape.corners.as_flattened().into(),
            floor: shape.floor.try_into().ok(),
        };
        let b = cart.clone();
        Some((name, Pair { a, b }))
    });
    let is_refused = |(_, pair): &(u16, Pair)| {
        pair.a.floor == pair.b.floor && shape_of(&Making::Grow(pair.clone()), None) == Err(refusal)
    };
    pairs.into_iter().find(is_refused)
}
