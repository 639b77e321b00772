//! A ring of points as people draw it: in either sense, from any start, closed or open, with repeated
//! points and points in line. Ours, not of documents 01 and 02.
//!
//! What is left without repeats and points on the way must go once round the shape of all points, from
//! some corner of it, in one of the two senses: all starts and both senses are tried. Only where that
//! fails, the ring is walked from its lowest point to the corner that is blamed.

use crate::hull::hull_of;
use crate::judge::{corners_in, in_range};
use crate::plane::{Point, Shape, dot, turn};
use crate::refusal::{MOST_POINTS, Refusal};

/// The points of the list, or refusal 1, 2 or 3. A last point that is the first again is not counted.
pub fn judged(list: &[i32]) -> Result<Vec<Point>, Refusal> {
    if list.is_empty() || list.len() % 2 == 1 {
        return Err(Refusal::of_shape(1, 1));
    }
    let points = corners_in(list);
    let closing = usize::from(points.len() > 1 && points[0] == points[points.len() - 1]);
    if points.len() - closing > MOST_POINTS {
        return Err(Refusal::of_shape(2, 1));
    }
    if !points.iter().all(in_range) {
        return Err(Refusal::of_shape(3, 1));
    }
    Ok(points)
}

/// The shape that the ring goes round, or 4.
pub fn shape(points: &[Point]) -> Result<Shape, Refusal> {
    let shape = hull_of(points.to_vec());
    if goes_round(&corners_of(points), &shape) {
        return Ok(shape);
    }
    Err(Refusal::left_rule(1, blamed(points)))
}

/// The points at which the ring turns, in its order: no repeats, none on the straight way from one to
/// the next.
fn corners_of(ring: &[Point]) -> Vec<Point> {
    let mut left = ring.to_vec();
    while let Some(at) = (0..left.len()).find(|&at| is_passed(&left, at)) {
        left.remove(at);
    }
    left
}

/// Whether a point is the next one again, or on the straight way from the one before to the next.
fn is_passed(ring: &[Point], at: usize) -> bool {
    let count = ring.len();
    let (before, here, next) = (
        ring[(at + count - 1) % count],
        ring[at],
        ring[(at + 1) % count],
    );
    let is_repeated = count > 1 && here == next;
    is_repeated || (turn(before, here, next) == 0 && dot(here - before, next - here) > 0)
}

/// Whether the points are the corners of the shape in their order, from some start, in one sense.
fn goes_round(ring: &[Point], shape: &[Point]) -> bool {
    let backwards: Shape = shape.iter().rev().copied().collect();
    let from = |start: usize| [&ring[start..], &ring[..start]].concat();
    (0..ring.len()).any(|start| from(start) == shape || from(start) == backwards)
}

/// A position in the given list, and its point.
type Placed = (usize, Point);

/// The positions of the corner before and of the first corner that turns in, or at which the ring begins
/// to go round again: that one is below both of its neighbours.
fn blamed(points: &[Point]) -> (usize, usize) {
    let corners = from_the_lowest(points);
    let count = corners.len();
    let around = |at: usize| [at + count - 1, at, at + 1].map(|k| corners[k % count]);
    let is_inward = |&at: &usize| {
        let [(_, before), (_, here), (_, next)] = around(at);
        let is_below = |other: Point| here.low_then_left() < other.low_then_left();
        turn(before, here, next) <= 0 || (at > 0 && is_below(before) && is_below(next))
    };
    let at = (0..count).find(is_inward);
    let at = at.expect("what turns left and goes down once is a shape");
    let [(before, _), (here, _), _] = around(at);
    (before, here)
}

/// The corners of the ring from its lowest point on, the first of several, in the sense in which it turns
/// left there. Of equal neighbours the first on the way is meant, as the list is given.
fn from_the_lowest(points: &[Point]) -> Vec<Placed> {
    let mut ring: Vec<Placed> = points.iter().copied().enumerate().collect();
    if points.len() > 1 && points[0] == points[points.len() - 1] {
        ring.pop();
    }
    let lowest = (0..ring.len()).min_by_key(|&at| ring[at].1.low_then_left());
    ring.rotate_left(lowest.unwrap_or(0));
    ring.dedup_by_key(|&mut (_, point)| point);
    if ring.len() > 1 && ring[0].1 == ring[ring.len() - 1].1 {
        ring.pop();
    }
    let count = ring.len();
    if turn(ring[count - 1].1, ring[0].1, ring[1 % count].1) < 0 {
        ring[1..].reverse();
    }
    let bare: Vec<Point> = ring.iter().map(|&(_, point)| point).collect();
    let corners = (0..count).filter(|&at| !is_passed(&bare, at));
    corners.map(|at| ring[at]).collect()
}

#[cfg(test)]
mod tests {
    use super::*;
    use crate::judge::judge;
    use crate::make::dice::Dice;
    use crate::make::{numbers, rings};

    fn list(points: &[Point]) -> Vec<i32> {
        let numbers = numbers(points);
        numbers.iter().map(|&n| n as i32).collect()
    }

    /// Every answer is a shape, and again as a ring it is itself.
    #[test]
    fn rings_become_shapes() {
        let mut dice = Dice::new(81);
        let (mut good, mut bad) = (0, 0);
        while good < 1000 || bad < 1000 {
            let given: Vec<i32> = rings::list(&mut dice).iter().map(|&n| n as i32).collect();
            match judged(&given).and_then(|points| shape(&points)) {
                Ok(found) => {
                    assert_eq!(judge(&list(&found), 1), Ok(found.clone()));
                    assert_eq!(shape(&found), Ok(found));
                    good += 1;
                }
                Err(refusal) => bad += usize::from(refusal.number == 4),
            }
        }
    }

    /// A list that is a shape from some start is a ring, and one that is refused 4 whatever its start
    /// and sense has repeats, points in line or a dent.
    #[test]
    fn good_lists_are_rings_from_any_start() {
        let mut dice = Dice::new(82);
        for _ in 0..500 {
            let shape_of = crate::make::shapes::small(&mut dice);
            for start in 0..shape_of.len() {
                let mut ring = [&shape_of[start..], &shape_of[..start]].concat();
                assert_eq!(shape(&ring), Ok(shape_of.clone()));
                ring.reverse();
                assert_eq!(shape(&ring), Ok(shape_of.clone()));
            }
        }
    }
}
