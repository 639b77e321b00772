//! Width: the calipers, edges compared as exact fractions.
use super::calipers::calipers;
use super::corner::{Corner, Edge, cross, edge, squared};
use super::edges::after;
use super::judge::{Shape, admitted};
use super::root::rounded;
use super::walk::Next;
use crate::reply::Numbers;
use std::ops::ControlFlow::Continue;

/// More than any turn, 4·10^12 at most; all edges are narrower than one that has it at length 1.
const ABOVE: u64 = 1 << 42;

/// The edge across which the shape is narrowest, its corner, turn, squared length, and the width.
#[inline(never)]
pub fn width(list: &[i32], floor: u32) -> Numbers {
    match admitted(list, floor) {
        Ok(shape) if shape.corners.len() < 3 => Numbers::refused(10),
        Ok(shape) => narrowest(shape).told(shape.corners, floor),
        Err(refusal) => refusal,
    }
}

/// The first edge of the least turn·turn / squared length.
#[inline(always)]
fn narrowest(shape: Shape) -> Across {
    let mut best = Across {
        edge: 0,
        corner: 0,
        turn: ABOVE,
        squared: 1,
    };
    let _ = calipers(shape).pass(|walk, next| {
        let (i, j) = (walk.first.at(), walk.second.at());
        if next != Next::Second {
            best.meet(Across::of(i, j, walk.first.edge, walk.corner));
        }
        if next != Next::First {
            best.meet(Across::of(j, i, walk.second.edge, walk.corner));
        }
        Continue::<()>(())
    });
    best
}

/// An edge, the corner furthest from it, that corner's turn, and the edge's squared length.
struct Across {
    edge: usize,
    corner: usize,
    turn: u64,
    squared: u64,
}

impl Across {
    /// An edge, and a corner that is furthest from it; the edge leaves a corner that is so far from that one.
    #[inline(always)]
    fn of(i: usize, corner: usize, e: Edge, far: Edge) -> Across {
        Across {
            edge: i,
            corner,
            turn: cross(e, far).unsigned_abs(),
            squared: squared(e),
        }
    }

    /// Takes an edge that is narrower, or as narrow and earlier. No squared length passes 2^43, so the products have
    /// 127 bits.
    #[inline(always)]
    fn meet(&mut self, other: Across) {
        let square = |turn: u64| turn as u128 * turn as u128;
        let ours = square(self.turn) * other.squared as u128;
        let theirs = square(other.turn) * self.squared as u128;
        if theirs < ours || theirs == ours && other.edge < self.edge {
            *self = other;
        }
    }

    /// The answer. The corner after the furthest is as far if the edge between them is parallel: the smaller position
    /// counts.
    #[inline(always)]
    fn told(&self, corners: &[Corner], floor: u32) -> Numbers {
        let n = corners.len();
        let next = after(self.corner, n);
        let e = edge(corners[self.edge], corners[after(self.edge, n)]);
        let level = cross(e, edge(corners[self.corner], corners[next])) == 0;
        let corner = if level {
            self.corner.min(next)
        } else {
            self.corner
        };
        let width = rounded(self.turn, self.squared);
        Numbers::all([
            self.edge as u64,
            corner as u64,
            self.turn,
            self.squared,
            width,
            floor.into(),
        ])
    }
}
