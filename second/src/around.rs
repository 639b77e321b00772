//! Questions over all current shapes of a floor of a log: every shape, and every pair, tried. Ours, not
//! of document 02.

use crate::clearance::{Clearance, clearance};
use crate::combine::grow;
use crate::contact::{Contact, first_met, judge_places};
use crate::log::{self, Entry};
use crate::plane::{Point, Shape};
use crate::refusal::Refusal;

/// The name of the shape that is nearest, one name left out, and its clearance; the first in the log
/// on a tie. Refused 15, and 20 if there is none.
pub fn nearest(
    log: &[u8],
    shape: &[Point],
    floor: u16,
    but: Option<u16>,
) -> Result<(u16, Clearance), Refusal> {
    let held = on_floor(log, floor, but, 1)?;
    let each = held
        .iter()
        .map(|entry| (entry.name, clearance(shape, &entry.shape)));
    Ok(first_nearest(each))
}

/// The names of the two shapes that leave a cart the narrowest gap, and their clearance, both grown. A
/// pair goes before another by its first shape, then by its second. Refused 15, 20 if there are fewer
/// than two, and 6 and 7 shape by shape.
pub fn gap(log: &[u8], cart: &[Point], floor: u16) -> Result<([u16; 2], Clearance), Refusal> {
    let held = on_floor(log, floor, None, 2)?;
    let grown = all_grown(&held, cart)?;
    let pairs = grown.iter().enumerate().flat_map(|(place, first)| {
        let later = grown[place + 1..].iter();
        later.map(move |second| ([first.0, second.0], clearance(&first.1, &second.1)))
    });
    Ok(first_nearest(pairs))
}

/// The name of the shape that a straight drive meets first, and where; the first in the log on a tie;
/// nothing if it meets none. Refused 15, 20 if there is none, 3 of a place, the second list or the third,
/// and 6 and 7 shape by shape.
pub fn drive(
    log: &[u8],
    cart: &[Point],
    floor: u16,
    way: [Point; 2],
) -> Result<Option<(u16, Contact)>, Refusal> {
    let held = on_floor(log, floor, None, 1)?;
    judge_places(way, 2)?;
    let grown = all_grown(&held, cart)?;
    let met = grown
        .iter()
        .filter_map(|(name, shape)| Some((*name, first_met(shape, way)?)));
    Ok(met.reduce(|best, next| {
        let is_before = next.1.is_before(&best.1);
        if is_before { next } else { best }
    }))
}

/// Each name with its shape grown by the cart; 6 and 7 of the first shape that gives one.
fn all_grown(held: &[Entry], cart: &[Point]) -> Result<Vec<(u16, Shape)>, Refusal> {
    let grown = |entry: &Entry| Ok((entry.name, grow(&entry.shape, cart)?));
    held.iter().map(grown).collect()
}

/// The current shapes on a floor but for one name; 15, and 20 if there are fewer than the least.
fn on_floor(log: &[u8], floor: u16, but: Option<u16>, least: usize) -> Result<Vec<Entry>, Refusal> {
    let mut held = log::current(log)?;
    held.retain(|entry| entry.floor == floor && Some(entry.name) != but);
    if held.len() < least {
        return Err(Refusal::plain(20));
    }
    Ok(held)
}

/// The first of which none is nearer.
fn first_nearest<T>(all: impl Iterator<Item = (T, Clearance)>) -> (T, Clearance) {
    let nearer = |best: (T, Clearance), next: (T, Clearance)| match (&next.1, &best.1) {
        (None, Some(_)) => next,
        (Some((at, _)), Some((other, _))) if at.nearer_than(other) => next,
        _ => best,
    };
    all.reduce(nearer).expect("there are as many as wanted")
}

#[cfg(test)]
mod tests;
