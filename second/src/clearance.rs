//! The clearance of two shapes (document 02, W3): the least distance between any point of one and
//! any point of the other. Every pair of corners and every corner against every edge tried.
//!
//! A distance is the fraction t·t/q of a corner against an edge, or d/1 of two corners. Of shapes
//! that are apart the nearest two points are on both rims, and where both are inside edges these are
//! parallel: then an end of one of them is as near. So nothing is nearer than what is tried here.

use crate::measure::rounded_root;
use crate::plane::{Point, dot, edge_ends, squared_distance, turn};
use crate::separation::{Relation, relation};

#[derive(Clone, Copy, Debug, PartialEq, Eq)]
pub enum Between {
    /// A corner of the first, a corner of the second.
    Corners { i: usize, j: usize, d: i128 },
    /// A corner of the first, an edge of the second.
    CornerEdge(Against),
    /// A corner of the second, an edge of the first.
    EdgeCorner(Against),
}

/// A corner of one shape whose foot is strictly inside an edge of the other, the size of its turn
/// and the edge's squared length.
#[derive(Clone, Copy, Debug, PartialEq, Eq)]
pub struct Against {
    pub corner: usize,
    pub edge: usize,
    pub t: i128,
    pub q: i128,
}

/// Where a clearance falls, and the distance rounded down; nothing if the shapes are not apart.
pub type Clearance = Option<(Between, i128)>;

pub fn clearance(a: &[Point], b: &[Point]) -> Clearance {
    if relation(a, b) != Relation::Apart {
        return None;
    }
    let nearest = first_least(&candidates(a, b));
    let (top, bottom) = nearest.squared();
    Some((nearest, rounded_root(top, bottom)))
}

impl Between {
    /// The squared distance, top and bottom.
    pub fn squared(&self) -> (i128, i128) {
        match *self {
            Between::Corners { d, .. } => (d, 1),
            Between::CornerEdge(found) | Between::EdgeCorner(found) => (found.t * found.t, found.q),
        }
    }

    /// As exact fractions. Three points in range turn at most 4·10^12 and q is at most 8·10^12, so
    /// the products stay below 1.3·10^38, and i128 ends at 1.7·10^38.
    pub fn nearer_than(&self, other: &Between) -> bool {
        let ((top, bottom), (other_top, other_bottom)) = (self.squared(), other.squared());
        top * other_bottom < other_top * bottom
    }
}

/// In the order in which a tie is settled: two corners; a corner of the first against an edge of the
/// second; the reverse.
fn candidates(a: &[Point], b: &[Point]) -> Vec<Between> {
    let pairs = (0..a.len()).flat_map(|i| (0..b.len()).map(move |j| (i, j)));
    let corners = pairs.map(|(i, j)| Between::Corners {
        i,
        j,
        d: squared_distance(a[i], b[j]),
    });
    let corner_edge = feet(a, b).into_iter().map(Between::CornerEdge);
    let edge_corner = feet(b, a).into_iter().map(Between::EdgeCorner);
    corners.chain(corner_edge).chain(edge_corner).collect()
}

/// Each corner of one shape against each edge of the other that has its foot strictly inside.
fn feet(corners: &[Point], edges: &[Point]) -> Vec<Against> {
    let pairs = (0..corners.len()).flat_map(|i| (0..edges.len()).map(move |e| (i, e)));
    let against = |(corner, edge): (usize, usize)| {
        let (p, q) = edge_ends(edges, edge);
        let found = Against {
            corner,
            edge,
            t: turn(p, q, corners[corner]).abs(),
            q: squared_distance(p, q),
        };
        let along = dot(q - p, corners[corner] - p);
        (0 < along && along < found.q).then_some(found)
    };
    pairs.filter_map(against).collect()
}

/// The first of which none is nearer.
fn first_least(all: &[Between]) -> Between {
    let mut best = all[0];
    for next in all {
        if next.nearer_than(&best) {
            best = *next;
        }
    }
    best
}

#[cfg(test)]
mod tests;
