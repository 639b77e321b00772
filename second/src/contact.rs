//! Where a cart that drives straight, without turning, first meets an obstacle. Ours, not of documents
//! 01 and 02. The cart meets it where its place is a point of the grown obstacle.
//!
//! The fractions of the way at which it is are all from a first to a last one. The first is 0, or the
//! place comes to the rim there: it crosses the line of an edge, or drives along one and comes to a
//! corner. So these are tried: 0, each crossing, and for each corner where the drive is level with it.

use crate::combine::grow;
use crate::judge::in_range;
use crate::plane::{Point, dot, edge_ends, squared_distance, turn};
use crate::refusal::Refusal;
use crate::wide::product;

/// The fraction n/d of the way in lowest terms, and the whole millimetres before it.
#[derive(Clone, Copy, Debug, PartialEq, Eq)]
pub struct Contact {
    pub n: i128,
    pub d: i128,
    pub safe: i128,
}

/// From 0/1 to 1/1.
type Fraction = (i128, i128);

impl Contact {
    /// As exact fractions.
    pub fn is_before(&self, other: &Contact) -> bool {
        self.n * other.d < other.n * self.d
    }
}

/// Nothing if they never meet. 3 of the place of departure, the third list, and of the destination, the
/// fourth; then 6 and 7 of the grown obstacle.
pub fn contact(
    obstacle: &[Point],
    cart: &[Point],
    way: [Point; 2],
) -> Result<Option<Contact>, Refusal> {
    judge_places(way, 3)?;
    Ok(first_met(&grow(obstacle, cart)?, way))
}

/// 3 of the place of departure, the list of this number, or of the destination, the next one.
pub fn judge_places(way: [Point; 2], first: usize) -> Result<(), Refusal> {
    for (list, place) in (first..).zip(&way) {
        if !in_range(place) {
            return Err(Refusal::of_shape(3, list));
        }
    }
    Ok(())
}

/// Where on the way the place first is in the grown obstacle; nothing if it never is.
pub fn first_met(grown: &[Point], way: [Point; 2]) -> Option<Contact> {
    let met = tried(grown, way)
        .into_iter()
        .filter(|&at| holds(grown, way, at));
    let first = met.reduce(|best, next| {
        let is_earlier = next.0 * best.1 < best.0 * next.1;
        if is_earlier { next } else { best }
    });
    first.map(|at| {
        let (n, d) = lowest(at);
        let safe = safe(n, d, squared_distance(way[0], way[1]));
        Contact { n, d, safe }
    })
}

fn tried(shape: &[Point], [from, to]: [Point; 2]) -> Vec<Fraction> {
    let lines = (0..shape.len()).filter_map(|edge| {
        let (p, q) = edge_ends(shape, edge);
        crossing(turn(p, q, from), turn(p, q, to))
    });
    let corners = shape.iter().filter_map(|&c| {
        let ahead = |place: Point| dot(to - from, place - c);
        crossing(ahead(from), ahead(to))
    });
    [(0, 1)].into_iter().chain(lines).chain(corners).collect()
}

/// Where on the way a value that changes evenly is 0, if it changes.
fn crossing(from: i128, to: i128) -> Option<Fraction> {
    let (n, d) = if from < to {
        (-from, to - from)
    } else {
        (from, from - to)
    };
    (d > 0 && 0 <= n && n <= d).then_some((n, d))
}

/// Whether the shape, border included, holds the place. All is taken d times.
fn holds(shape: &[Point], [from, to]: [Point; 2], (n, d): Fraction) -> bool {
    let at = |value: &dyn Fn(Point) -> i128| (d - n) * value(from) + n * value(to);
    match *shape {
        [p] => at(&|c| i128::from(c.x - p.x)) == 0 && at(&|c| i128::from(c.y - p.y)) == 0,
        [p, q] => {
            let along = at(&|c| dot(q - p, c - p));
            at(&|c| turn(p, q, c)) == 0 && 0 <= along && along <= d * squared_distance(p, q)
        }
        _ => (0..shape.len()).all(|edge| {
            let (p, q) = edge_ends(shape, edge);
            at(&|c| turn(p, q, c)) >= 0
        }),
    }
}

fn lowest((n, d): Fraction) -> Fraction {
    let (mut common, mut rest) = (d, n);
    while rest != 0 {
        (common, rest) = (rest, common % rest);
    }
    (n / common, d / common)
}

/// The greatest m with m·m·d·d at most n·n·l, l the squared length of the way, which is below 3 km.
fn safe(n: i128, d: i128, l: i128) -> i128 {
    let [n, d, l] = [n, d, l].map(|part| u128::try_from(part).expect("0 or more"));
    let is_before = |m: u128| product(m * d, m * d) <= product(n * n, l);
    let (mut low, mut high) = (0, 3_000_000);
    while high - low > 1 {
        let middle = (low + high) / 2;
        if is_before(middle) {
            low = middle;
        } else {
            high = middle;
        }
    }
    low as i128
}

#[cfg(test)]
mod tests;
