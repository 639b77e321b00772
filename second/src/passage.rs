//! Passing straight between two obstacles, without turning (our own, not of documents 01 and 02): the
//! cart fits across a direction if the gap between the obstacles in it is more than the cart's spread.
//! Of all directions that one is answered in which most is left over, for its length.
//!
//! What is left over in a direction d is the least value of the points l - a - (r - b), where l, r, a
//! and b are corners of the left obstacle, of the right one, and twice of the cart. For the length of d
//! it is greatest towards the one of these points, or of those between them, that is nearest to the
//! origin: towards a corner of their shape, or across an edge of it. Each is tried.

use crate::combine::{all_sums, grow, mirror};
use crate::measure::rounded_root;
use crate::plane::{Point, divisor, dot, edge_ends, point, value};
use crate::refusal::Refusal;
use std::cmp::Ordering;

/// A direction in lowest terms, in which the right obstacle is below and the left one above, the
/// values between which the cart's origin may be, and what is between them in whole millimetres.
#[derive(Clone, Copy, Debug, PartialEq, Eq)]
pub struct Way {
    pub across: Point,
    pub low: i128,
    pub high: i128,
    pub width: i128,
}

/// Nothing if the cart fits in no direction. 6 and 7 of the left obstacle grown, then of the right.
pub fn passage(left: &[Point], right: &[Point], cart: &[Point]) -> Result<Option<Way>, Refusal> {
    let (left_grown, right_grown) = (grow(left, cart)?, grow(right, cart)?);
    let points = all_sums(&left_grown, &mirror(&right_grown));
    let ways = directions(&points).map(|d| way(left, right, cart, d));
    Ok(ways.filter(|way| way.low < way.high).max_by(wider))
}

/// Towards each corner, and into the shape from each edge.
fn directions(shape: &[Point]) -> impl Iterator<Item = Point> {
    let edges = (0..shape.len()).map(|edge| edge_ends(shape, edge));
    let normals = edges.map(|(from, to)| (to - from).quarter_turned());
    let all = shape.iter().copied().chain(normals);
    all.filter(|&d| d != point(0, 0)).map(lowest)
}

fn lowest(d: Point) -> Point {
    let common = divisor(d.x, d.y);
    point(d.x / common, d.y / common)
}

/// The cart touches the right obstacle at the low value, and the left one at the high value.
fn way(left: &[Point], right: &[Point], cart: &[Point], d: Point) -> Way {
    let low = greatest(right, d) + greatest(cart, -d);
    let high = -greatest(left, -d) - greatest(cart, d);
    let room = (high - low).max(0);
    Way {
        across: d,
        low,
        high,
        width: rounded_root(room * room, dot(d, d)),
    }
}

fn greatest(shape: &[Point], d: Point) -> i128 {
    let values = shape.iter().map(|&p| value(d, p));
    values.max().expect("a shape has a corner")
}

/// By what is between the lines over the direction's length, both squared.
fn wider(a: &Way, b: &Way) -> Ordering {
    let squared = |way: &Way| {
        let room = way.high - way.low;
        (room * room, dot(way.across, way.across))
    };
    compared(squared(a), squared(b))
}

/// Two fractions, top and bottom, by their whole parts and then by what is left, turned over: the
/// products of tops and bottoms would not fit.
fn compared(a: (i128, i128), b: (i128, i128)) -> Ordering {
    let whole = (a.0 / a.1).cmp(&(b.0 / b.1));
    match (whole, a.0 % a.1, b.0 % b.1) {
        (Ordering::Equal, 0, rest) => 0.cmp(&rest),
        (Ordering::Equal, _, 0) => Ordering::Greater,
        (Ordering::Equal, rest, other) => compared((b.1, other), (a.1, rest)),
        _ => whole,
    }
}

#[cfg(test)]
mod tests {
    use super::*;
    use crate::hull::hull_of;
    use crate::make::dice::Dice;
    use crate::plane::Shape;
    use crate::separation::{Relation, relation};

    fn small_shape(dice: &mut Dice, size: i64) -> Shape {
        let count = dice.between(1, 6);
        let points =
            (0..count).map(|_| point(dice.between(-size, size), dice.between(-size, size)));
        hull_of(points.collect())
    }

    fn moved(shape: &[Point], by: Point) -> Shape {
        shape.iter().map(|&p| p + by).collect()
    }

    /// All directions of a box but (0,0).
    fn box_of_directions() -> impl Iterator<Item = Point> {
        let all = (-9..=9).flat_map(|u| (-9..=9).map(move |v| point(u, v)));
        all.filter(|&d| d != point(0, 0))
    }

    #[test]
    fn no_direction_has_more_room() {
        let mut dice = Dice::new(41);
        let (mut blocked, mut free) = (0, 0);
        while blocked < 400 || free < 400 {
            let (left, cart) = (small_shape(&mut dice, 9), small_shape(&mut dice, 4));
            let by = point(dice.between(-22, 22), dice.between(-22, 22));
            let right = moved(&small_shape(&mut dice, 9), by);
            let found = passage(&left, &right, &cart).expect("all is small");
            for d in box_of_directions() {
                let tried = way(&left, &right, &cart, d);
                match found {
                    None => assert!(tried.high <= tried.low, "{left:?} {right:?} {cart:?} {d:?}"),
                    Some(most) if tried.low < tried.high => {
                        assert!(
                            wider(&tried, &most).is_le(),
                            "{left:?} {right:?} {cart:?} {d:?}"
                        );
                    }
                    Some(_) => {}
                }
            }
            match found {
                None => blocked += 1,
                Some(_) => free += 1,
            }
        }
    }

    /// A place strictly between the lines is apart from both obstacles, one on a line from the one on
    /// the other side.
    #[test]
    fn places_between_the_lines_are_clear() {
        let mut dice = Dice::new(42);
        let mut places = 0;
        while places < 4000 {
            let (left, cart) = (small_shape(&mut dice, 9), small_shape(&mut dice, 4));
            let right = moved(&small_shape(&mut dice, 9), point(dice.between(12, 30), 0));
            let Some(way) = passage(&left, &right, &cart).expect("all is small") else {
                continue;
            };
            let place = point(dice.between(-20, 40), dice.between(-20, 20));
            let at = value(way.across, place);
            let there = moved(&cart, place);
            if way.low < at && at <= way.high {
                assert_eq!(relation(&there, &right), Relation::Apart);
            }
            if way.low <= at && at < way.high {
                assert_eq!(relation(&there, &left), Relation::Apart);
                places += 1;
            }
        }
    }

    #[test]
    fn fractions_compare_by_their_parts() {
        let by_products = |a: (i128, i128), b: (i128, i128)| (a.0 * b.1).cmp(&(b.0 * a.1));
        let mut dice = Dice::new(43);
        for _ in 0..4000 {
            let mut any = || (dice.between(0, 60).into(), dice.between(1, 60).into());
            let (a, b) = (any(), any());
            assert_eq!(compared(a, b), by_products(a, b), "{a:?} {b:?}");
        }
    }
}
