//! Corners of a finite set of points, and the shape of the set ("What each question asks" of 01).
//!
//!     hull_of points       the standard list of the corners; repeats count once
//!     hull_by_meaning      the same, every point tried against every other however many there are
//!     standard_list        puts corners in order: lowest, then leftmost first, counterclockwise
//!
//! Small sets go by the meaning of the definition, large ones by a sorted chain; the tests hold the
//! two against each other, and the first against all directions of a box.

use crate::plane::{Point, Shape, cross, dot, turn};
use std::cmp::Ordering;

/// Up to this many different points every point is tried against every other.
const FEW: usize = 150;

/// The shape of a finite set of points. Empty only for no points.
pub fn hull_of(mut points: Vec<Point>) -> Shape {
    points.sort_unstable_by_key(Point::low_then_left);
    points.dedup();
    let corners = if points.len() <= FEW {
        corners_by_meaning(&points)
    } else {
        corners_by_chain(&points)
    };
    standard_list(corners)
}

/// The same by the meaning of the definition alone.
pub fn hull_by_meaning(mut points: Vec<Point>) -> Shape {
    points.sort_unstable_by_key(Point::low_then_left);
    points.dedup();
    standard_list(corners_by_meaning(&points))
}

/// The corners of a shape in any order, put in standard order.
/// Seen from the first corner all others lie in different directions of a half turn.
pub fn standard_list(mut corners: Vec<Point>) -> Shape {
    let Some(&first) = corners.iter().min_by_key(|c| c.low_then_left()) else {
        return corners;
    };
    corners.retain(|&c| c != first);
    corners.sort_by(|&a, &b| match turn(first, a, b) {
        t if t > 0 => Ordering::Less,
        t if t < 0 => Ordering::Greater,
        _ => Ordering::Equal,
    });
    corners.insert(0, first);
    corners
}

/// The different points that are strictly furthest in some whole-number direction.
fn corners_by_meaning(points: &[Point]) -> Vec<Point> {
    let is_corner = |p: Point| {
        let from_others: Vec<Point> = points.iter().filter(|&&q| q != p).map(|&q| p - q).collect();
        some_direction_above(&from_others)
    };
    points.iter().copied().filter(|&p| is_corner(p)).collect()
}

/// Whether some whole-number direction has a value above 0 on every vector.
///
/// It has exactly if, seen from one vector r, all lie less than a half turn to the left or in r's
/// own direction. For with l the last of them to the left, the direction r turned left plus l
/// turned right (or r itself, if all lie along r) is above 0 on all. And if a direction is above 0
/// on all, they lie in an open half plane, where the rightmost is such an r; one pass finds it.
pub fn some_direction_above(vectors: &[Point]) -> bool {
    let Some(&first) = vectors.first() else {
        return true;
    };
    let right = |r: Point, &v: &Point| if cross(r, v) < 0 { v } else { r };
    let r = vectors.iter().fold(first, right);
    vectors.iter().all(|&v| match cross(r, v) {
        0 => dot(r, v) > 0,
        left => left > 0,
    })
}

/// The same corners, for points in ascending order without repeats: up the right, down the left.
fn corners_by_chain(points: &[Point]) -> Vec<Point> {
    let mut corners = left_turns(points.iter().copied());
    let mut down = left_turns(points.iter().rev().copied());
    corners.pop();
    down.pop();
    corners.append(&mut down);
    corners
}

/// What stays if every point that does not turn left to the next one is dropped.
fn left_turns(points: impl Iterator<Item = Point>) -> Vec<Point> {
    let mut kept: Vec<Point> = Vec::new();
    for p in points {
        while let [.., a, b] = kept[..]
            && turn(a, b, p) <= 0
        {
            kept.pop();
        }
        kept.push(p);
    }
    kept
}

#[cfg(test)]
mod tests {
    use super::*;
    use crate::make::dice::Dice;
    use crate::plane::{point, value};

    fn cloud(dice: &mut Dice, count: i64, size: i64) -> Vec<Point> {
        let mut points: Vec<Point> = (0..count)
            .map(|_| point(dice.between(0, size), dice.between(-size, 0)))
            .collect();
        points.sort_by_key(Point::low_then_left);
        points.dedup();
        points
    }

    /// The definition word for word, over all directions with parts up to `size`.
    fn corners_by_box(points: &[Point], size: i64) -> Vec<Point> {
        let strictly_furthest = |p: Point, d: Point| {
            let others = points.iter().filter(|&&q| q != p);
            others.into_iter().all(|&q| value(d, q) < value(d, p))
        };
        let is_corner = |p: Point| {
            (-size..=size).any(|u| (-size..=size).any(|v| strictly_furthest(p, point(u, v))))
        };
        points.iter().copied().filter(|&p| is_corner(p)).collect()
    }

    #[test]
    fn meaning_agrees_with_all_directions_of_a_box() {
        let mut dice = Dice::new(1);
        for _ in 0..2000 {
            let count = dice.between(1, 9);
            let points = cloud(&mut dice, count, 3);
            assert_eq!(corners_by_meaning(&points), corners_by_box(&points, 6));
        }
    }

    #[test]
    fn chain_agrees_with_meaning() {
        let mut dice = Dice::new(2);
        for round in 0..3000 {
            let size = [2, 5, 30, 2_000_000][round % 4];
            let count = dice.between(2, 60);
            let points = cloud(&mut dice, count, size);
            if points.len() >= 2 {
                let by_chain = standard_list(corners_by_chain(&points));
                assert_eq!(by_chain, standard_list(corners_by_meaning(&points)));
            }
        }
    }
}
