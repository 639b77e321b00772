//! Compares the questions that write nothing.
use super::directions::{directions, shortest};
use super::tally::Tally;
use super::{Lent, on};
use crate::plain;
use crate::reply::Numbers;
use cocklesway::{
    Walk, area, clearance, contact, excess, find, furthest, greatest, inside, judge, least_box,
    length, offer, passage, relation, tangents, width,
};

/// A question of two shapes.
type Two = fn(Lent, Lent) -> Numbers;

/// Those of which the whole answer is fixed: word, plain and proved.
const FIXED: [(&str, Two, Two); 7] = [
    (
        "relation",
        |(a, f), (b, g)| plain::relation(a, f, b, g),
        |a, b| Numbers::of(relation(on(a), on(b))),
    ),
    (
        "inside",
        |(a, f), (b, g)| plain::inside(a, f, b, g),
        |a, b| Numbers::of(inside(on(a), on(b))),
    ),
    (
        "clearance",
        |(a, f), (b, g)| plain::clearance(a, f, b, g),
        |a, b| Numbers::of(clearance(on(a), on(b))),
    ),
    (
        "greatest",
        |(a, f), (b, g)| plain::greatest(a, f, b, g),
        |a, b| Numbers::of(greatest(on(a), on(b))),
    ),
    (
        "excess",
        |(a, f), (b, g)| plain::excess(a, f, b, g),
        |a, b| Numbers::of(excess(on(a), on(b))),
    ),
    (
        "tangents",
        |(a, f), (b, g)| plain::tangents(a, f, b, g),
        |a, b| Numbers::of(tangents(on(a), on(b))),
    ),
    (
        "begin",
        |(a, f), (b, g)| plain::begin(a, f, b, g),
        |a, b| Numbers::of(Walk::begin(on(a), on(b))),
    ),
];

/// The questions of one shape.
pub fn ask_one(tally: &mut Tally, lent: Lent) -> Result<(), String> {
    let ((a, f), shape) = (lent, on(lent));
    tally.add("judge", lent, plain::judge(a, f), Numbers::of(judge(shape)))?;
    for d in directions(a).into_iter().flat_map(|d| [d, shortest(d)]) {
        let by_hand = plain::furthest(a, f, d[0], d[1]);
        let by_proof = Numbers::of(furthest(shape, d));
        tally.add("furthest", (lent, d), by_hand, by_proof)?;
    }
    tally.add(
        "length",
        lent,
        plain::length(a, f),
        Numbers::of(length(shape)),
    )?;
    tally.add("area", lent, plain::area(a, f), Numbers::of(area(shape)))?;
    let (by_hand, by_proof) = (plain::least_box(a, f), Numbers::of(least_box(shape)));
    tally.add("box", lent, by_hand, by_proof)?;
    tally.add("width", lent, plain::width(a, f), Numbers::of(width(shape)))
}

/// The questions of two shapes.
pub fn ask_two(tally: &mut Tally, a: Lent, b: Lent) -> Result<(), String> {
    for (word, by_hand, by_proof) in FIXED {
        tally.add(word, [a, b], by_hand(a, b), by_proof(a, b))?;
    }
    for cart in [(&[1, -1][..], a.1), (&[0, 0, 3, 1, 1, 2], a.1), b] {
        let by_hand = plain::passage(a.0, a.1, b.0, b.1, cart.0, cart.1);
        let by_proof = Numbers::of(passage(on(a), on(b), on(cart)));
        tally.add("passage", [a, b, cart], by_hand, by_proof)?;
    }
    ask_directions(tally, a, b)
}

/// Drives of small carts and of the second shape up to the first one.
pub fn ask_drives(tally: &mut Tally, a: Lent, b: Lent) -> Result<(), String> {
    for cart in [(&[1, -1][..], a.1), (&[0, 0, 3, 1, 1, 2], a.1), b] {
        for way in ways(a.0, b.0) {
            let [from, to] = way;
            let by_hand = plain::contact(a.0, a.1, cart.0, cart.1, from, to);
            let by_proof = Numbers::of(contact(on(a), on(cart), from, to));
            tally.add("contact", (a, cart, way), by_hand, by_proof)?;
        }
    }
    Ok(())
}

/// From a corner of the second list to one of the first, and along the second.
fn ways(a: &[i32], b: &[i32]) -> [[[i32; 2]; 2]; 2] {
    let corner = |list: &[i32], k: usize| match list.as_chunks().0.get(k) {
        Some(corner) => *corner,
        None => [0, 0],
    };
    let [start, middle] = [0, b.len() / 4].map(|k| corner(b, k));
    [[start, corner(a, a.len() / 4)], [start, middle]]
}

/// Directions of two shapes: which is found is left open, so each is offered.
fn ask_directions(tally: &mut Tally, a: Lent, b: Lent) -> Result<(), String> {
    let by_hand = plain::find(a.0, a.1, b.0, b.1);
    let by_proof = Numbers::of(find(on(a), on(b)));
    let found = [by_hand.direction(), by_proof.direction()];
    tally.add("find", [a, b], undirected(by_hand), undirected(by_proof))?;
    let any = directions(a.0);
    let others = [any[0], shortest(any[0]), shortest(any[1])];
    for d in found.into_iter().flatten().chain(others) {
        let by_hand = plain::offer(a.0, a.1, b.0, b.1, d[0], d[1]);
        let by_proof = Numbers::of(offer(on(a), on(b), d));
        tally.add("offer", (a, b, d), by_hand, by_proof)?;
        let accepted = by_hand.refusal == 0 && by_hand.values[0] == 1;
        if found.contains(&Some(d)) && !accepted {
            return Err(format!("find of {a:?} and {b:?}: {d:?} is not accepted"));
        }
    }
    Ok(())
}

/// What is found, but for the direction.
fn undirected(mut found: Numbers) -> Numbers {
    if found.direction().is_some() {
        found.values[1..3].fill(0);
    }
    found
}
