//! The narrowest gap of a floor: a pair is walked if its boxes are nearer than what was found, and only shapes of such
//! pairs are grown.
use super::clearance::{between_shapes, distance};
use super::corner::{Corner, opposite, plus};
use super::extent::{apart, extent};
use super::judge::{MOST, Shape, admitted, top};
use super::log::{Record, current, survey};
use super::sum;
use crate::reply::Numbers;

/// The names of the two current shapes on a floor with the narrowest gap, both grown by a cart, and what clearance
/// answers of them.
#[inline(never)]
pub fn log_gap(log: &[u8], cart: &[i32], floor: u32) -> Numbers {
    match asked(log, cart, floor) {
        Ok(told) | Err(told) => told,
    }
}

fn asked(log: &[u8], cart: &[i32], floor: u32) -> Result<Numbers, Numbers> {
    let cart = admitted(cart, floor)?;
    let mut records = Vec::new();
    survey(log, |record| records.push(record))?;
    let on_floor = current(&records).filter(|record| u32::from(record.floor) == floor);
    let mut on_floor: Vec<_> = on_floor.collect();
    if on_floor.len() < 2 {
        return Err(Numbers::refused(20));
    }
    on_floor.reverse();
    let mut buffer = [[0; 2]; MOST];
    let mut spans = Vec::with_capacity(on_floor.len());
    for record in &on_floor {
        let shape = record.read(&mut buffer);
        sum::survey::<_, true>(shape, cart).map_err(Numbers::refused)?;
        spans.push(grown_span(shape, cart));
    }
    Ok(narrowest(&on_floor, &spans, cart, floor))
}

/// What an obstacle spans once it is grown by a cart.
#[inline(always)]
fn grown_span(obstacle: Shape, cart: Shape) -> [Corner; 2] {
    let ([low, high], [least, most]) = (extent(obstacle), extent(cart));
    [plus(low, opposite(most)), plus(high, opposite(least))]
}

/// The corners of an obstacle that is grown by a cart. They are at most as many as both have.
fn grow(obstacle: Shape, cart: Shape) -> Vec<Corner> {
    let room = obstacle.corners.len() + cart.corners.len();
    let mut corners = vec![[0; 2]; room];
    let count = sum::add::<_, true>(obstacle, cart, &mut corners).unwrap_or(0);
    corners.truncate(count);
    corners
}

/// The first of the nearest pairs.
fn narrowest(records: &[&Record], spans: &[[Corner; 2]], cart: Shape, floor: u32) -> Numbers {
    let mut buffer = [[0; 2]; MOST];
    let mut grown = vec![Vec::new(); records.len()];
    let mut best = Numbers::refused(20);
    let mut least = (u128::MAX, 1);
    for (i, &one) in spans.iter().enumerate() {
        for (j, &other) in spans.iter().enumerate().skip(i + 1) {
            if least.0 <= apart(one, other) * least.1 {
                continue;
            }
            for k in [i, j] {
                if grown[k].is_empty() {
                    grown[k] = grow(records[k].read(&mut buffer), cart);
                }
            }
            let found = between_shapes(shape_of(&grown[i]), shape_of(&grown[j]), floor);
            let far = distance(found);
            if best.refusal != 0 || far.0 * least.1 < least.0 * far.1 {
                (best, least) = (found.named([records[i].name, records[j].name]), far);
            }
        }
    }
    best
}

/// Corners that are a shape, as one.
fn shape_of(corners: &[Corner]) -> Shape<'_> {
    let top = top(corners).unwrap_or(0);
    Shape { corners, top }
}
