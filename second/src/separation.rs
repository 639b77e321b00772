//! Relation and inside of two shapes (document 01).
//!
//! Relation asks of "some whole-number direction", and finitely many directions settle it. Let
//! gap(d) be the least value of the second less the greatest value of the first: "apart" is a gap
//! above 0, "touching" a gap of 0 or more in a direction other than (0,0). Take the normals of
//! all edges of both shapes, to both sides, and the four directions along the axes. Between two
//! neighbours m, n of these there is at most a quarter turn, and the first's furthest corner and
//! the second's nearest stay the same ones, since they change only at normals of edges (a
//! segment has two, opposite; a point none). So the gap is linear between them: a direction
//! d = α·m + β·n with α, β ≥ 0 has gap(d) = α·gap(m) + β·gap(n). If gap(d) is above 0, so is the
//! gap of m or n; if d is not (0,0) and gap(d) is at least 0, so is the gap of m or n.

use crate::plane::{Point, dot, edge_ends, point, turn, value};

#[derive(Clone, Copy, Debug, PartialEq, Eq)]
pub enum Relation {
    Apart,
    Touching,
    Overlapping,
}

pub fn relation(a: &[Point], b: &[Point]) -> Relation {
    let widest = candidates(a, b).iter().map(|&d| gap(a, b, d)).max();
    match widest {
        Some(gap) if gap > 0 => Relation::Apart,
        Some(0) => Relation::Touching,
        _ => Relation::Overlapping,
    }
}

/// Whether the first is inside the second: every corner of it is.
///
/// If the corner c is in the second, c is an average of the second's corners, and its value is at
/// most their greatest in every direction. If c is not, some direction tells: the normal of an edge
/// that has c on its wrong side, the way along the segment on whose line but beyond whose end c
/// lies, or the difference to the point that c is not.
pub fn inside(a: &[Point], b: &[Point]) -> bool {
    a.iter().all(|&c| holds(b, c))
}

/// Whether the shape, border included, holds the point.
fn holds(shape: &[Point], c: Point) -> bool {
    match *shape {
        [p] => c == p,
        [p, q] => turn(p, q, c) == 0 && dot(p - c, q - c) <= 0,
        _ => (0..shape.len()).all(|edge| {
            let (a, b) = edge_ends(shape, edge);
            turn(a, b, c) >= 0
        }),
    }
}

/// The directions that settle it.
pub fn candidates(a: &[Point], b: &[Point]) -> Vec<Point> {
    [normals(a), normals(b), axes()].concat()
}

/// The normals of all edges, to both sides.
fn normals(shape: &[Point]) -> Vec<Point> {
    if shape.len() < 2 {
        return Vec::new();
    }
    let left = |edge: usize| {
        let (a, b) = edge_ends(shape, edge);
        (b - a).quarter_turned()
    };
    (0..shape.len())
        .flat_map(|edge| [left(edge), -left(edge)])
        .collect()
}

fn axes() -> Vec<Point> {
    vec![point(1, 0), point(0, 1), point(-1, 0), point(0, -1)]
}

/// The least value of the second less the greatest value of the first.
pub fn gap(a: &[Point], b: &[Point], d: Point) -> i128 {
    let greatest = a.iter().map(|&p| value(d, p)).max();
    let least = b.iter().map(|&q| value(d, q)).min();
    least.unwrap_or(0) - greatest.unwrap_or(0)
}

#[cfg(test)]
mod tests;
