//! Shapes from edge vectors: sorted by angle and walked from the standard corner.

use crate::plane::{Point, Shape, cross, divisor, point};
use std::cmp::Ordering;

/// The shape whose edges are the vectors and one more that closes them; vectors of one direction
/// become one edge. No vectors give a point, opposite ones a segment.
pub fn shape_from_edges(vectors: &[Point]) -> Shape {
    let mut at = point(0, 0);
    let mut corners = vec![at];
    for edge in closed_edges(vectors) {
        at = at + edge;
        corners.push(at);
    }
    if corners.len() > 1 {
        corners.pop();
    }
    corners
}

/// The same edges in order of angle, closed, one for each direction.
pub fn closed_edges(vectors: &[Point]) -> Vec<Point> {
    let total = vectors.iter().fold(point(0, 0), |sum, &v| sum + v);
    let mut edges = vectors.to_vec();
    edges.push(-total);
    edges.retain(|&v| v != point(0, 0));
    edges.sort_by(by_angle);
    join_equal_directions(&edges)
}

/// Every edge of a shape as a vector.
pub fn edges_of(shape: &[Point]) -> Vec<Point> {
    let next = |i: usize| shape[(i + 1) % shape.len()];
    (0..shape.len()).map(|i| next(i) - shape[i]).collect()
}

/// The `count` shortest vectors of the upper half (and along x) that are no multiples of others.
pub fn shortest_primitives(count: usize) -> Vec<Point> {
    let size = 2 + 2 * count.isqrt() as i64;
    let grid = (0..=size).flat_map(|y| (-size..=size).map(move |x| point(x, y)));
    let mut found: Vec<Point> = grid
        .filter(|&v| upper(v) && divisor(v.x, v.y) == 1)
        .collect();
    found.sort_by_key(|v| (v.x * v.x + v.y * v.y, v.y, v.x));
    found.truncate(count);
    found
}

/// The shortest whole vector in the direction; along x for none.
pub fn along(direction: Point) -> Point {
    match divisor(direction.x, direction.y) {
        0 => point(1, 0),
        common => point(direction.x / common, direction.y / common),
    }
}

fn upper(v: Point) -> bool {
    v.y > 0 || (v.y == 0 && v.x > 0)
}

/// From the direction of x once round to the left.
fn by_angle(a: &Point, b: &Point) -> Ordering {
    let halves = upper(*b).cmp(&upper(*a));
    halves.then_with(|| 0.cmp(&cross(*a, *b)))
}

fn join_equal_directions(edges: &[Point]) -> Vec<Point> {
    let mut joined: Vec<Point> = Vec::new();
    for &edge in edges {
        match joined.last_mut() {
            Some(last) if by_angle(last, &edge) == Ordering::Equal => *last = *last + edge,
            _ => joined.push(edge),
        }
    }
    joined
}
